//! The step checker (document 01, "What the step checker passes") on kernels that the Rust compiles, which all pass, and on
//! mutants of them: ours answers as a checker written from 01's text alone does, position included, and whatever ours
//! passes runs as the graph does.
use std::fmt;

use qcdsp::kernels::KernelTables;
use qcdsp::tables::Tables;

use crate::blocks::Words;
use crate::checker;
use crate::ours::{Call, Function, Ours};
use crate::playing::{self, Play};
use crate::random::Random;
use crate::runs::{Question, Skipped, compiled, expanded, graph_call, header, lent, step_call, tables, with_spare};

/// A kernel to be checked against a block.
#[derive(Debug, Clone)]
pub struct Checked {
    pub play: Play,
    pub expanded: Tables,
    pub mask: u32,
    pub kernel: KernelTables,
}

impl Checked {
    /// The call, with the answer of the checker written from the text.
    pub fn question(&self) -> Question {
        let Checked { play, expanded, mask, kernel } = self;
        let spare = play.spare;
        let nodes = expanded.nodes.len() / 3;
        let memories = (expanded.states.len() + expanded.delays.len()) / 2;
        let [.., slots, spills] = kernel.counts.map(|count| count as usize);
        let work = 8 * nodes + 8 * memories + 320 + slots + spills + spare;
        let mut scalars = header(&play.block);
        scalars.push(*mask);
        scalars.extend(kernel.counts);
        let mut slices = tables(&play.block);
        slices.push(("steps", with_spare(kernel.steps.clone(), spare)));
        slices.push(("instructions", with_spare(kernel.instructions.clone(), spare)));
        slices.push(("the expansion", lent(expanded.nodes.len() + spare)));
        slices.push(("work", lent(work)));
        slices.push(("answer", lent(2)));
        let mut answer = lent(2);
        let number = match checker::check(expanded, *mask, kernel) {
            Ok(()) => 0,
            Err(position) => {
                answer[0] = position as u32;
                19
            }
        };
        let left = vec![
            ("the expansion", with_spare(expanded.nodes.clone(), spare)),
            ("work", vec![0; work]),
            ("answer", answer),
        ];
        Question { function: Function::Check, scalars, slices, number, left }
    }
}

impl fmt::Display for Checked {
    fn fmt(&self, f: &mut fmt::Formatter) -> fmt::Result {
        write!(f, "{}", Words(&self.play.block))?;
        writeln!(f, "mask: {:04x}\nkernel: {:x?}", self.mask, self.kernel)
    }
}

/// One change of a kernel that may or may not make it wrong.
fn mutant(random: &mut Random, from: &Checked, other: &Checked) -> Checked {
    let mut mutant = from.clone();
    let KernelTables { counts, steps, instructions } = &mut mutant.kernel;
    let total = steps.len() / 2;
    let changed = |random: &mut Random, word: u32| match random.below(4) {
        0 => word ^ 1 << random.below(32),
        1 => word ^ 1 << random.below(8),
        2 => word / 16 * 16 + random.below(16) as u32,
        _ => word.wrapping_add(random.pick(&[1, 16, 256, u32::MAX, 4096])),
    };
    match random.below(12) {
        0..=3 => {
            let at = random.below(steps.len());
            steps[at] = changed(random, steps[at]);
        }
        4 if !instructions.is_empty() => {
            let at = random.below(instructions.len());
            instructions[at] = changed(random, instructions[at]);
        }
        4 | 5 => {
            let at = random.below(total);
            steps.drain(2 * at..2 * at + 2);
            counts[usize::from(at >= counts[0] as usize)] -= 1;
        }
        6 => {
            let (at, to) = (random.below(total), random.below(total + 1));
            let step = [steps[2 * at], steps[2 * at + 1]];
            steps.splice(2 * to..2 * to, step);
            counts[usize::from(to > counts[0] as usize)] += 1;
        }
        7 | 8 => {
            let at = random.below(total);
            let to = if random.one_in(2) { (at + 1) % total } else { random.below(total) };
            steps.swap(2 * at, 2 * to);
            steps.swap(2 * at + 1, 2 * to + 1);
        }
        9 => mutant.kernel = other.kernel.clone(),
        10 => mutant.mask ^= 1 << random.below(17),
        _ => {
            let at = random.below(5);
            let most = [total as u32, total as u32, instructions.len() as u32 / 2, 40, 40][at];
            counts[at] = random.below(most as usize + 1) as u32;
            let rest = (total as u32).saturating_sub(counts[0]);
            counts[1] = counts[1].min(rest);
        }
    }
    mutant
}

#[derive(Default)]
struct Counts {
    kernels: u64,
    too_few_registers: u64,
    mutants: u64,
    passed: u64,
    samples: u64,
    positions: [u64; 3],
}

impl fmt::Display for Counts {
    fn fmt(&self, f: &mut fmt::Formatter) -> fmt::Result {
        let Counts { kernels, too_few_registers, mutants, passed, samples, positions: [control, sample, end] } = self;
        writeln!(f, "checks: {kernels} kernels of the Rust pass; {too_few_registers} that it refuses for too few registers skipped")?;
        writeln!(f, "checks: {mutants} mutants answered as by the checker written from the text: {control} refused in control, {sample} in the sample, {end} at the end")?;
        write!(f, "checks: {passed} mutants pass, and run {samples} samples as the graph does, bit for bit")
    }
}

/// Ours passes the list: its step run and its graph run leave the same words.
fn runs_alike(ours: &mut Ours, checked: &Checked) -> Result<u64, String> {
    let play = Play { spare: 0, ..checked.play.clone() };
    let graph = graph_call(&play, &checked.expanded);
    let steps = step_call(&play, &checked.expanded, &checked.kernel);
    let answers = ours.calls(&[call(&graph), call(&steps)]);
    let of = |slices: &[Vec<u32>], from: usize| slices[from..from + 4].to_vec();
    if answers[0].result != 0 || answers[1].result != 0 || of(&answers[0].slices, 2) != of(&answers[1].slices, 4) {
        return Err(format!("a list that passes does not run as the graph: {answers:x?}\n{checked}"));
    }
    Ok(checked.play.input.len() as u64)
}

fn call(question: &Question) -> Call<'_> {
    question.call()
}

/// A random block that plays, and the kernel that the Rust makes of it for a random mask.
fn checked(random: &mut Random) -> Result<Checked, Skipped> {
    let (mut play, mask) = playing::played(random);
    play.input.truncate(8);
    play.network.truncate(play.input.len());
    let kernel = KernelTables::of(&compiled(&play, mask)?);
    let expanded = expanded(&play)?;
    let high = random.word() << 16;
    Ok(Checked { play, expanded, mask: u32::from(mask) | high, kernel })
}

const BATCH: u64 = 100;
const MUTANTS: usize = 6;

pub fn compare(ours: &mut Ours, seed: u64, count: u64) -> Result<(), String> {
    println!("checks: {} by name", crate::check_cases::compare(ours)?);
    let mut counts = Counts::default();
    let mut other: Option<Checked> = None;
    for start in (0..count).step_by(BATCH as usize) {
        let mut asked: Vec<(Checked, bool)> = Vec::new();
        for number in start..count.min(start + BATCH) {
            let random = &mut Random::of_case(seed, number);
            let Ok(kernel) = checked(random) else {
                counts.too_few_registers += 1;
                continue;
            };
            let before = other.replace(kernel.clone()).unwrap_or_else(|| kernel.clone());
            asked.push((kernel.clone(), false));
            asked.extend((0..MUTANTS).map(|_| (mutant(random, &kernel, &before), true)));
        }
        let questions: Vec<Question> = asked.iter().map(|(checked, _)| checked.question()).collect();
        let answers = ours.calls(&questions.iter().map(call).collect::<Vec<_>>());
        for (((checked, is_mutant), question), answer) in asked.iter().zip(&questions).zip(&answers) {
            if let Some(difference) = question.difference(answer) {
                return Err(format!("blocks {start}..: {difference}\n{checked}"));
            }
            if !is_mutant {
                if question.number != 0 {
                    return Err(format!("blocks {start}..: a kernel of the Rust does not pass\n{checked}"));
                }
                counts.kernels += 1;
                continue;
            }
            counts.mutants += 1;
            if question.number == 0 {
                counts.passed += 1;
                counts.samples += runs_alike(ours, checked)?;
                continue;
            }
            let position = question.left[2].1[0];
            let [control, sample, ..] = checked.kernel.counts;
            counts.positions[usize::from(position >= control) + usize::from(position >= control + sample)] += 1;
        }
    }
    println!("{counts}");
    Ok(())
}
