//! Set, reset and both runs (document 01, module 6) against the Rust's `Processor`: output, states, delay cells,
//! cursors, and for a kernel registers and slots, bit for bit in the domain of equality.
use std::fmt;

use qcdsp::codegen::{Kernel, compile_with};
use qcdsp::kernels::KernelTables;
use qcdsp::tables::Tables;
use qcdsp::{Error, Machine, Memories, Processor};

use crate::blocks::Words;
use crate::ours::{Answer, Call, Function, Ours};
use crate::playing::{self, Play};
use crate::random::Random;
use crate::refusals;
use crate::shrink::smallest;

/// What a lent word is before a call, where nothing else is said.
pub const LENT: u32 = 0xa5a5_0000;

pub fn lent(count: usize) -> Vec<u32> {
    (0..count as u32).map(|at| LENT + at).collect()
}

/// A call of ours and the answer that it must give.
#[derive(Debug, Clone)]
pub struct Question {
    pub function: Function,
    pub scalars: Vec<u32>,
    pub slices: Vec<(&'static str, Vec<u32>)>,
    pub number: u32,
    /// What the last slices, those lent to be written, must be afterwards.
    pub left: Vec<(&'static str, Vec<u32>)>,
}

impl Question {
    pub fn call(&self) -> Call<'_> {
        Call {
            function: self.function,
            scalars: self.scalars.clone(),
            slices: self.slices.iter().map(|(_, words)| &words[..]).collect(),
            written: self.left.len(),
        }
    }

    pub fn difference(&self, answer: &Answer) -> Option<String> {
        if answer.result != self.number {
            return Some(format!("{:?}: ours answers {}, not {}", self.function, answer.result, self.number));
        }
        self.left.iter().zip(&answer.slices).find_map(|((name, left), ours)| {
            let at = (0..left.len()).find(|&at| left[at] != ours[at])?;
            Some(format!("{:?}: word {at} of {name}: ours {:08x}, not {:08x}", self.function, ours[at], left[at]))
        })
    }
}

/// What is asked of a block that plays.
#[derive(Debug, Clone, Copy, PartialEq, Eq)]
pub enum Case {
    Graph,
    /// The kernel that the Rust compiles for the registers of a mask.
    Steps(u16),
    Set {
        index: u32,
        value: u32,
    },
    Reset,
}

/// Why a case is not asked.
#[derive(Debug, PartialEq, Eq)]
pub enum Skipped {
    Invalid,
    TooFewRegisters,
}

/// What the Rust leaves after a run.
struct Rendered {
    output: Vec<u32>,
    memories: Memories,
    machine: Machine,
}

pub fn processor(play: &Play, kernel: Option<Kernel>) -> Option<Processor> {
    let block = play.block.block(&play.network)?;
    let mut processor = match kernel {
        Some(kernel) => Processor::lowered(block, kernel),
        None => Processor::new(block),
    }
    .ok()?;
    processor.put_parameters(&play.settings);
    processor.put_memories(&play.memories);
    Some(processor)
}

/// How many samples are in the domain of equality: all up to the first where a node's value is NaN or min or max meets
/// zeros of opposite sign.
fn domain(play: &Play) -> Option<usize> {
    let mut graph = processor(play, None)?;
    let mut is_compared = |&word: &u32| {
        graph.process_sample(f32::from_bits(word));
        graph.is_compared()
    };
    Some(play.input.iter().take_while(|word| is_compared(word)).count())
}

fn rendered(play: &Play, kernel: Option<Kernel>) -> Option<Rendered> {
    let mut processor = processor(play, kernel)?;
    let output = play.input.iter().map(|&word| processor.process_sample(f32::from_bits(word)).to_bits()).collect();
    Some(Rendered { output, memories: processor.memories(), machine: processor.machine().unwrap_or_default() })
}

/// The memories after the samples in the domain of equality, with which the next run goes on.
pub fn after(play: &Play) -> Option<Memories> {
    let mut play = play.clone();
    play.input.truncate(domain(&play)?);
    Some(rendered(&play, None)?.memories)
}

pub fn compiled(play: &Play, mask: u16) -> Result<Kernel, Skipped> {
    let block = play.block.block(&play.network).ok_or(Skipped::Invalid)?;
    compile_with(&block, mask).map_err(|error| match error {
        Error::RegisterPressure => Skipped::TooFewRegisters,
        _ => Skipped::Invalid,
    })
}

pub fn header(block: &Tables) -> Vec<u32> {
    vec![block.version, block.category, block.channels, block.network, block.output]
}

pub fn tables(block: &Tables) -> Vec<(&'static str, Vec<u32>)> {
    vec![
        ("parameters", block.parameters.clone()),
        ("states", block.states.clone()),
        ("delays", block.delays.clone()),
        ("nodes", block.nodes.clone()),
    ]
}

fn memory_tables(memories: &Memories) -> [(&'static str, Vec<u32>); 3] {
    [
        ("states held", memories.held.clone()),
        ("the delay area", memories.area.clone()),
        ("cursors", memories.cursors.clone()),
    ]
}

/// The first words, and then `spare` lent ones that stay.
pub fn with_spare(mut words: Vec<u32>, spare: usize) -> Vec<u32> {
    let count = words.len() + spare;
    words.extend(&lent(count)[words.len()..]);
    words
}

impl Case {
    /// The call with the Rust's answer.
    pub fn question(self, play: &Play) -> Result<Question, Skipped> {
        let mut play = play.clone();
        play.input.truncate(domain(&play).ok_or(Skipped::Invalid)?);
        match self {
            Case::Graph => graph_question(&play),
            Case::Steps(mask) => steps_question(&play, mask),
            Case::Set { index, value } => set_question(&play, index, value),
            Case::Reset => reset_question(&play),
        }
    }
}

pub fn expanded(play: &Play) -> Result<Tables, Skipped> {
    Ok(Tables::of(&play.block.block(&play.network).ok_or(Skipped::Invalid)?.expanded()))
}

/// A graph run; what it must leave is not said.
pub fn graph_call(play: &Play, expanded: &Tables) -> Question {
    let spare = play.spare;
    let mut slices = tables(&play.block);
    slices.push(("settings", play.settings.clone()));
    slices.push(("input", play.input.clone()));
    slices.push(("network", play.sent(play.input.len())));
    let mut left = vec![
        ("the expansion", lent(expanded.nodes.len() + spare)),
        ("values", lent(expanded.nodes.len() / 3 + spare)),
    ];
    left.extend(memory_tables(&play.memories));
    left.push(("output", lent(play.input.len())));
    left.push(("answer", lent(2)));
    slices.extend(left.clone());
    Question { function: Function::GraphRun, scalars: header(&play.block), slices, number: 0, left }
}

fn graph_question(play: &Play) -> Result<Question, Skipped> {
    let rendered = rendered(play, None).ok_or(Skipped::Invalid)?;
    let expanded = expanded(play)?;
    let mut question = graph_call(play, &expanded);
    let values = question.left[1].1.len();
    question.left = vec![("the expansion", with_spare(expanded.nodes, play.spare)), ("values", vec![0; values])];
    question.left.extend(memory_tables(&rendered.memories));
    question.left.push(("output", rendered.output));
    question.left.push(("answer", lent(2)));
    Ok(question)
}

/// A step run; what it must leave is not said. The input has `spare` words more than the budget has steps for.
pub fn step_call(play: &Play, expanded: &Tables, kernel: &KernelTables) -> Question {
    let (spare, done) = (play.spare, play.input.len());
    let [control, sample, _, slots, spills] = kernel.counts;
    let budget = if spare == 0 { u32::MAX - done as u32 } else { control + done as u32 * sample + play.extra % sample };
    let mut scalars = header(&play.block);
    scalars.extend(kernel.counts);
    scalars.push(budget);
    let mut slices = tables(&play.block);
    slices.push(("steps", with_spare(kernel.steps.clone(), spare)));
    slices.push(("instructions", with_spare(kernel.instructions.clone(), spare)));
    slices.push(("settings", play.settings.clone()));
    slices.push(("input", with_spare(play.input.clone(), spare)));
    slices.push(("network", play.sent(done + spare)));
    let mut left = vec![
        ("registers", lent(16 + spare)),
        ("the expansion", lent(expanded.nodes.len() + spare)),
        ("control slots", lent(slots as usize + spare)),
        ("spill slots", lent(spills as usize + spare)),
    ];
    left.extend(memory_tables(&play.memories));
    left.push(("output", lent(done + spare)));
    left.push(("answer", lent(2)));
    slices.extend(left.clone());
    Question { function: Function::StepRun, scalars, slices, number: 0, left }
}

fn steps_question(play: &Play, mask: u16) -> Result<Question, Skipped> {
    let (spare, done) = (play.spare, play.input.len());
    let kernel = compiled(play, mask)?;
    let words = KernelTables::of(&kernel);
    let rendered = rendered(play, Some(kernel)).ok_or(Skipped::Invalid)?;
    let expanded = expanded(play)?;
    let mut question = step_call(play, &expanded, &words);
    let left = &mut question.left;
    left[1].1 = with_spare(expanded.nodes, spare);
    left[8].1 = vec![0, 0];
    if done > 0 {
        let Machine { registers, mut control, mut spills } = rendered.machine;
        control.resize(control.len() + spare, 0);
        spills.resize(spills.len() + spare, 0);
        left[0].1 = with_spare(registers, spare);
        left[2].1 = control;
        left[3].1 = spills;
        for (before, after) in left[4..7].iter_mut().zip(memory_tables(&rendered.memories)) {
            *before = after;
        }
        left[7].1 = with_spare(rendered.output, spare);
        left[8].1 = vec![done as u32, words.counts[0] + done as u32 * words.counts[1]];
    }
    Ok(question)
}

fn set_question(play: &Play, index: u32, value: u32) -> Result<Question, Skipped> {
    let mut processor = processor(play, None).ok_or(Skipped::Invalid)?;
    let number = match processor.set_parameter(index as usize, f32::from_bits(value)) {
        Ok(()) => 0,
        Err(Error::UnknownParameter(_)) => 17,
        Err(_) => 18,
    };
    let mut scalars = header(&play.block);
    scalars.extend([index, value]);
    let mut slices = tables(&play.block);
    slices.extend([("settings", play.settings.clone()), ("answer", lent(2))]);
    let mut answer = lent(2);
    if number != 0 {
        answer[0] = 0;
    }
    let left = vec![("settings", processor.parameters()), ("answer", answer)];
    Ok(Question { function: Function::Set, scalars, slices, number, left })
}

/// Whatever stood there, cursors past their lines as well.
fn reset_question(play: &Play) -> Result<Question, Skipped> {
    let mut processor = processor(play, None).ok_or(Skipped::Invalid)?;
    processor.reset();
    let memories = processor.memories();
    let mut slices = tables(&play.block);
    let names = memory_tables(&memories);
    slices.extend(names.iter().map(|(name, words)| (*name, lent(words.len()))));
    slices.push(("answer", lent(2)));
    let mut left = names.to_vec();
    left.push(("answer", lent(2)));
    Ok(Question { function: Function::Reset, scalars: header(&play.block), slices, number: 0, left })
}

/// The smallest case that shows a difference, and what it is.
fn smallest_difference(ours: &mut Ours, play: &Play, case: Case) -> String {
    let mut asked = |play: &Play| {
        let question = case.question(play).ok()?;
        question.difference(&ours.call(question.call()))
    };
    let play = smallest(play.clone(), playing::smaller, |play| asked(play).is_some());
    format!("{case:x?}: {}\n{}", asked(&play).unwrap_or_default(), Shown(&play, case))
}

/// A case as words.
struct Shown<'a>(&'a Play, Case);

impl fmt::Display for Shown<'_> {
    fn fmt(&self, f: &mut fmt::Formatter) -> fmt::Result {
        let Shown(play, case) = self;
        write!(f, "{}", Words(&play.block))?;
        let Memories { held, area, cursors } = &play.memories;
        let rows = [
            ("settings", &play.settings),
            ("states held", held),
            ("area", area),
            ("cursors", cursors),
            ("input", &play.input),
            ("network", &play.network),
        ];
        for (name, words) in rows {
            writeln!(f, "{name}: {words:08x?}")?;
        }
        if let Case::Steps(mask) = case
            && let Ok(kernel) = compiled(play, *mask)
        {
            writeln!(f, "kernel: {:x?}", KernelTables::of(&kernel))?;
        }
        Ok(())
    }
}

/// What was compared.
#[derive(Default)]
struct Counts {
    blocks: u64,
    runs: u64,
    graph_samples: u64,
    kernels: u64,
    step_samples: u64,
    too_few_registers: u64,
    cut: u64,
    sets: [u64; 3],
    resets: u64,
    codes: [u64; 18],
}

impl Counts {
    fn add(&mut self, play: &Play, case: Case, question: &Question) {
        match case {
            Case::Graph => {
                let samples = question.left[5].1.len();
                self.runs += 1;
                self.graph_samples += samples as u64;
                self.cut += (samples < play.input.len()) as u64;
            }
            Case::Steps(_) => {
                self.kernels += 1;
                self.step_samples += u64::from(question.left[8].1[0]);
            }
            Case::Set { .. } => self.sets[question.number.saturating_sub(16) as usize] += 1,
            Case::Reset => self.resets += 1,
        }
    }
}

impl fmt::Display for Counts {
    fn fmt(&self, f: &mut fmt::Formatter) -> fmt::Result {
        let Counts { blocks, runs, graph_samples, kernels, step_samples, too_few_registers, cut, sets, resets, .. } = self;
        writeln!(f, "runs: {blocks} blocks, {runs} graph runs of {graph_samples} samples bit for bit, {cut} of them up to a NaN or zeros of opposite sign")?;
        writeln!(f, "runs: {kernels} kernels run for {step_samples} samples bit for bit; {too_few_registers} that the Rust refuses for too few registers skipped")?;
        write!(f, "runs: {} sets, of them {} refused by 17 and {} by 18; {resets} resets", sets.iter().sum::<u64>(), sets[1], sets[2])
    }
}

const BATCH: u64 = 200;

/// `count` random blocks, each in up to three runs, one behind the other, by the graph and by a kernel.
fn compare_random(ours: &mut Ours, seed: u64, count: u64) -> Result<Counts, String> {
    let mut counts = Counts::default();
    for start in (0..count).step_by(BATCH as usize) {
        let mut asked: Vec<(Play, Case, Question)> = Vec::new();
        for number in start..count.min(start + BATCH) {
            let random = &mut Random::of_case(seed, number);
            for (play, case) in playing::cases(random) {
                match case.question(&play) {
                    Ok(question) => asked.push((play, case, question)),
                    Err(Skipped::TooFewRegisters) => counts.too_few_registers += 1,
                    Err(Skipped::Invalid) => panic!("the Rust takes a block that was made to be valid:\n{}", Words(&play.block)),
                }
            }
            counts.blocks += 1;
        }
        let calls: Vec<Call> = asked.iter().map(|(_, _, question)| question.call()).collect();
        let answers = ours.calls(&calls);
        for ((play, case, question), answer) in asked.iter().zip(&answers) {
            if question.difference(answer).is_some() {
                return Err(format!("blocks {start}..: {}", smallest_difference(ours, play, *case)));
            }
            counts.add(play, *case, question);
            play.block.nodes.chunks(3).for_each(|node| counts.codes[node[0] as usize] += 1);
        }
    }
    Ok(counts)
}

pub fn compare(ours: &mut Ours, seed: u64, count: u64) -> Result<(), String> {
    println!("runs: {}", refusals::compare(ours)?);
    let counts = compare_random(ours, seed, count)?;
    println!("{counts}");
    if let Some(code) = (0..18).find(|&code| counts.codes[code] < count / 100) {
        return Err(format!("too few nodes have the code {code}: the generator is to be mended"));
    }
    Ok(())
}
