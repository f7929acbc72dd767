//! Compile (document 01, modules 3 and 4) against the Rust's `compile_with`: every word of the step and instruction tables,
//! the counts, the registers, the expansion and every other lent word, for blocks of many shapes and masks of all kinds.
use std::fmt;
use std::time::{Duration, Instant};

use qcdsp::Error;
use qcdsp::codegen::compile_with;
use qcdsp::kernels::KernelTables;
use qcdsp::tables::Tables;

use crate::blocks::{Words, needed, random_block, rust_verdict};
use crate::compile_blocks::{double_masks, full, high_bits, large, mask, narrow, single_masks, small};
use crate::compile_cases;
use crate::generate::fault;
use crate::lowering::{EVENTS, Lowered, Slip, lower};
use crate::ours::{Call, Function, Ours};
use crate::random::Random;
use crate::runs::{Question, header, tables};
use crate::shrink::{smaller_blocks, smallest};

/// The tables that a call writes, in this order.
pub const WRITTEN: [&str; 4] = ["the expansion", "steps", "instructions", "work"];

/// How long the lent tables are, and what is in them.
#[derive(Debug, Clone, Copy)]
pub struct Lent {
    pub seed: u64,
    /// Words more or less than each table needs.
    pub spare: [i64; 4],
    pub answer: usize,
}

impl Lent {
    pub const EXACT: Self = Self { seed: 0, spare: [0; 4], answer: 6 };

    fn random(random: &mut Random) -> Self {
        let spare = match random.below(16) {
            0 => {
                let mut spare = [0; 4];
                spare[random.below(4)] = -1;
                spare
            }
            1 => [0; 4].map(|_: i64| random.below(40) as i64 - 3),
            2..8 => [0; 4].map(|_: i64| random.below(40) as i64),
            _ => [0; 4],
        };
        let answer = if random.one_in(8) { random.below(9) } else { 6 };
        Self { seed: random.next(), spare, answer }
    }
}

#[derive(Debug, Clone)]
pub struct Case {
    pub block: Tables,
    pub mask: u32,
    pub lent: Lent,
}

/// What the Rust says of a block and a mask: a number of document 01's table with its index, or the kernel.
pub enum Said {
    Refused { number: u32, index: u32 },
    Locked { expanded: Tables },
    Compiled { expanded: Tables, lowered: Lowered },
}

pub fn rust_says(block: &Tables, mask: u32) -> Said {
    let verdict = rust_verdict(block);
    if verdict.number != 0 {
        return Said::Refused { number: verdict.number, index: verdict.index.unwrap_or(0) };
    }
    let block = block.block(&[]).expect("the Rust takes this block");
    let expanded = Tables::of(&block.expanded());
    match compile_with(&block, mask as u16) {
        Ok(kernel) => {
            let lowered =
                Lowered { kernel: KernelTables::of(&kernel), registers: kernel.contract.registers_used as u32 };
            Said::Compiled { expanded, lowered }
        }
        Err(Error::RegisterPressure) => Said::Locked { expanded },
        Err(error) => panic!("the Rust refuses a block in another way: {error}"),
    }
}

/// The words that each of the four tables needs, for so many expanded nodes and memories.
pub fn lengths(nodes: usize, memories: usize) -> [usize; 4] {
    let steps = 2 * (7 * nodes + 5 * (memories + 1));
    [3 * nodes, steps, steps, 32 * nodes + 16 * memories + 320]
}

/// A large block is not made smaller for longer than this.
const SHRINKING: Duration = Duration::from_secs(60);

/// A refused block asks for no table.
const REFUSED_LENT: [usize; 4] = [40; 4];

impl Case {
    /// The call with the Rust's answer.
    pub fn question(&self, said: &Said) -> Question {
        let Case { block, mask, lent } = self;
        let memories = (block.states.len() + block.delays.len()) / 2;
        let need = match said {
            Said::Refused { .. } => REFUSED_LENT,
            _ => lengths(needed(block) / 3, memories),
        };
        let random = &mut Random::new(lent.seed);
        let mut words = |count: usize| -> Vec<u32> { (0..count).map(|_| random.word()).collect() };
        let mut left: Vec<(&'static str, Vec<u32>)> = Vec::new();
        for ((name, need), spare) in WRITTEN.into_iter().zip(need).zip(lent.spare) {
            left.push((name, words((need as i64 + spare).max(0) as usize)));
        }
        left.push(("answer", words(lent.answer)));
        let mut slices = tables(block);
        slices.extend(left.clone());
        let is_short = lent.spare.iter().any(|&spare| spare < 0);
        let number = leave(said, is_short, &mut left);
        let mut scalars = header(block);
        scalars.push(*mask);
        Question { function: Function::Compile, scalars, slices, number, left }
    }

    /// The smallest case that shows a difference, and what it is.
    fn difference(&self, ours: &mut Ours) -> String {
        let mut asked = |case: &Case| {
            let question = case.question(&rust_says(&case.block, case.mask));
            question.difference(&ours.call(question.call()))
        };
        let start = Instant::now();
        let case = smallest(self.clone(), smaller, |case| start.elapsed() < SHRINKING && asked(case).is_some());
        format!("{}\n{case}", asked(&case).unwrap_or_default())
    }
}

/// Puts what a call must leave into the tables, and gives its number.
fn leave(said: &Said, is_short: bool, left: &mut [(&'static str, Vec<u32>)]) -> u32 {
    let mut answer = vec![0];
    let number = match said {
        Said::Refused { number, index } => {
            answer = vec![*index];
            *number
        }
        _ if is_short => 13,
        Said::Locked { expanded } => {
            put(&mut left[0].1, &expanded.nodes);
            left[1..4].iter_mut().for_each(|(_, words)| words.fill(0));
            14
        }
        Said::Compiled { expanded, lowered: Lowered { kernel, registers } } => {
            put(&mut left[0].1, &expanded.nodes);
            left[1..4].iter_mut().for_each(|(_, words)| words.fill(0));
            put(&mut left[1].1, &kernel.steps);
            put(&mut left[2].1, &kernel.instructions);
            answer = [&kernel.counts[..], &[*registers]].concat();
            0
        }
    };
    let said = &mut left[4].1;
    answer.truncate(said.len());
    put(said, &answer);
    number
}

fn put(table: &mut [u32], words: &[u32]) {
    table[..words.len()].copy_from_slice(words);
}

/// The case with a smaller block, a smaller mask, or plainer tables.
fn smaller(case: Case) -> impl Iterator<Item = Case> {
    let blocks = smaller_blocks(case.block.clone());
    let with_mask = case.clone();
    let masks = (0..32).filter(move |bit| with_mask.mask >> bit & 1 == 1).map({
        let case = case.clone();
        move |bit| Case { mask: case.mask & !(1 << bit), ..case.clone() }
    });
    let is_plain = case.lent.spare == Lent::EXACT.spare && case.lent.answer == Lent::EXACT.answer;
    let plain = (!is_plain).then(|| Case { lent: Lent { seed: case.lent.seed, ..Lent::EXACT }, ..case.clone() });
    plain.into_iter().chain(blocks.map(move |block| Case { block, ..case.clone() })).chain(masks)
}

impl fmt::Display for Case {
    fn fmt(&self, f: &mut fmt::Formatter) -> fmt::Result {
        let Case { block, mask, lent } = self;
        write!(f, "{}mask: {mask:08x}\n{lent:?}\n", Words(block))?;
        match rust_says(block, *mask) {
            Said::Refused { number, .. } => write!(f, "the Rust: {number}"),
            Said::Locked { .. } => write!(f, "the Rust: 14"),
            Said::Compiled { lowered, .. } => write!(f, "the Rust: {lowered:x?}"),
        }
    }
}

/// What was compared.
struct Counts {
    answers: [u64; 15],
    steps: u64,
    instructions: u64,
    spared: u64,
    no_registers: u64,
    high_bits: u64,
    /// For each mask of one and of two registers: how often it was asked, and how often the block was compiled.
    singles: Vec<(u32, [u64; 2])>,
    doubles: Vec<(u32, [u64; 2])>,
    /// Blocks in which each event came up.
    events: [u64; EVENTS.len()],
    /// How many of the first blocks that compile were lowered with each slip, and how often that gave another list.
    slipped: u64,
    slips: Vec<(Slip, u64)>,
}

const SLIPPED: u64 = 20_000;

impl Counts {
    fn new() -> Self {
        let none = |masks: Vec<u32>| masks.into_iter().map(|mask| (mask, [0, 0])).collect();
        Self {
            answers: [0; 15],
            steps: 0,
            instructions: 0,
            spared: 0,
            no_registers: 0,
            high_bits: 0,
            singles: none(single_masks()),
            doubles: none(double_masks()),
            events: [0; EVENTS.len()],
            slipped: 0,
            slips: compile_cases::slips().into_iter().map(|slip| (slip, 0)).collect(),
        }
    }

    fn add(&mut self, case: &Case, question: &Question, said: &Said) -> Result<(), String> {
        self.answers[question.number as usize] += 1;
        let low = case.mask & 0xffff;
        self.no_registers += u64::from(low == 0);
        self.high_bits += u64::from(low != case.mask);
        self.spared += u64::from(question.number == 0 && case.lent.spare != [0; 4]);
        let (expanded, lowered) = match said {
            Said::Refused { .. } => return Ok(()),
            Said::Locked { expanded } => (expanded, None),
            Said::Compiled { expanded, lowered } => (expanded, Some(lowered)),
        };
        if question.number == 13 {
            return Ok(());
        }
        for (_, counts) in self.singles.iter_mut().chain(&mut self.doubles).filter(|(mask, _)| *mask == low) {
            counts[0] += 1;
            counts[1] += u64::from(lowered.is_some());
        }
        let (own, seen) = lower(expanded, low as u16, None);
        if own.as_ref() != lowered {
            return Err(format!("the driver's own lowering is not the Rust's, but {own:x?}\n{case}"));
        }
        self.events.iter_mut().zip(seen).for_each(|(blocks, seen)| *blocks += u64::from(seen > 0));
        if let Some(Lowered { kernel, .. }) = &own {
            self.steps += kernel.steps.len() as u64 / 2;
            self.instructions += kernel.instructions.len() as u64 / 2;
            self.slip(expanded, low as u16, &own);
        }
        Ok(())
    }

    fn slip(&mut self, expanded: &Tables, mask: u16, own: &Option<Lowered>) {
        if self.slipped < SLIPPED {
            self.slipped += 1;
            for (slip, shown) in &mut self.slips {
                *shown += u64::from(lower(expanded, mask, Some(*slip)).0 != *own);
            }
        }
    }
}

/// The fewest times that one of the masks was asked, and compiled.
fn fewest(masks: &[(u32, [u64; 2])]) -> [u64; 2] {
    [0, 1].map(|at| masks.iter().map(|(_, counts)| counts[at]).min().unwrap_or(0))
}

impl fmt::Display for Counts {
    fn fmt(&self, f: &mut fmt::Formatter) -> fmt::Result {
        let Counts { answers, steps, instructions, spared, no_registers, high_bits, .. } = self;
        let given = answers.iter().enumerate().filter(|&(_, &count)| count > 0);
        let given: Vec<String> = given.map(|(number, count)| format!("{number}: {count}")).collect();
        writeln!(f, "compiles: {} blocks with a mask; answers {}", answers.iter().sum::<u64>(), given.join(", "))?;
        writeln!(
            f,
            "compiles: {steps} steps and {instructions} instructions word for word; {spared} kernels into longer tables"
        )?;
        let ([singles, of_singles], [doubles, of_doubles]) = (fewest(&self.singles), fewest(&self.doubles));
        writeln!(
            f,
            "compiles: each mask of one register {singles} times or more, {of_singles} of them compiled; each of two {doubles}, {of_doubles}"
        )?;
        write!(
            f,
            "compiles: {no_registers} masks without a register, {high_bits} with bits above the sixteen; blocks that have"
        )?;
        for (name, blocks) in EVENTS.iter().zip(&self.events) {
            write!(f, "\ncompiles: {blocks:>8} {name}")?;
        }
        let slips: Vec<String> = self.slips.iter().map(|(slip, shown)| format!("{slip:?} {shown}")).collect();
        write!(f, "\ncompiles: of {} blocks a slip would show in: {}", self.slipped, slips.join(", "))
    }
}

/// The case of a number: a quarter each has masks of one and of two registers, all in turn.
fn case(seed: u64, number: u64) -> Case {
    let random = &mut Random::of_case(seed, number);
    let (singles, doubles) = (single_masks(), double_masks());
    let turn = (number / 4) as usize;
    let (mut block, mask) = match number % 4 {
        0 => (narrow(random), singles[turn % singles.len()] | high_bits(random)),
        1 => (narrow(random), doubles[turn % doubles.len()] | high_bits(random)),
        _ if random.one_in(16) => (random_block(random, usize::MAX), mask(random)),
        _ if random.one_in(10) => (full(random), 0xffff | high_bits(random)),
        _ => (small(random), mask(random)),
    };
    if random.one_in(25) {
        for _ in 0..1 + random.below(2) {
            let number = 1 + random.below(12) as u32;
            fault(random, &mut block, number);
        }
    }
    Case { block, mask, lent: Lent::random(random) }
}

fn compare_all(ours: &mut Ours, cases: Vec<Case>, counts: &mut Counts) -> Result<(), String> {
    let said: Vec<Said> = cases.iter().map(|case| rust_says(&case.block, case.mask)).collect();
    let questions: Vec<Question> = cases.iter().zip(&said).map(|(case, said)| case.question(said)).collect();
    let calls: Vec<Call> = questions.iter().map(Question::call).collect();
    let answers = ours.calls(&calls);
    for (((case, said), question), answer) in cases.iter().zip(&said).zip(&questions).zip(&answers) {
        if question.difference(answer).is_some() {
            return Err(case.difference(ours));
        }
        counts.add(case, question, said)?;
    }
    Ok(())
}

const BATCH: u64 = 100;

fn compare_random(ours: &mut Ours, seed: u64, count: u64) -> Result<Counts, String> {
    let mut counts = Counts::new();
    for start in (0..count).step_by(BATCH as usize) {
        let numbers = start..count.min(start + BATCH);
        let cases = numbers.map(|number| case(seed, number)).collect();
        compare_all(ours, cases, &mut counts).map_err(|said| format!("blocks {start}..: {said}"))?;
    }
    Ok(counts)
}

/// Expanded nodes, states and delays of large blocks, and how many blocks of the whole run are one of them.
const LARGE: [([usize; 3], u64); 6] = [
    ([5_000, 4, 4], 3_000),
    ([5_000, 300, 100], 10_000),
    ([65_536, 4, 4], 6_000),
    ([65_536, 200, 40], 20_000),
    ([9_000, 4_096, 4_096], 12_000),
    ([65_536, 4_096, 4_096], 100_000),
];

fn compare_large(ours: &mut Ours, seed: u64, count: u64) -> Result<(), String> {
    for ([length, states, delays], one_in) in LARGE {
        // slips are tried on small blocks alone
        let mut counts = Counts { slipped: SLIPPED, ..Counts::new() };
        let blocks = if count < one_in && one_in > 12_000 { 0 } else { count / one_in + 1 };
        for number in 0..blocks {
            let random = &mut Random::of_case(seed ^ length as u64, number);
            let block = large(random, length, states, delays);
            let mask = random.pick(&[0xffff, 0xffff, 0x0fff, 0x00ff, 0x8421]) | high_bits(random);
            let spare = [0; 4].map(|_: i64| random.below(3) as i64 * 100);
            let case = Case { block, mask, lent: Lent { seed: random.next(), spare, answer: 6 } };
            compare_all(ours, vec![case], &mut counts).map_err(|said| format!("large block {number}: {said}"))?;
        }
        if blocks == 0 {
            continue;
        }
        println!(
            "compiles: {blocks} of {length} expanded nodes, {states} states and {delays} delays; {} compiled to {} steps",
            counts.answers[0], counts.steps
        );
    }
    Ok(())
}

pub fn compare(ours: &mut Ours, seed: u64, count: u64) -> Result<(), String> {
    println!("{}", compile_cases::compare(ours)?);
    let counts = compare_random(ours, seed, count)?;
    println!("{counts}");
    if let Some(at) = (0..EVENTS.len()).find(|&at| counts.events[at] < count / 500) {
        return Err(format!("too few blocks have {}: the generator is to be mended", EVENTS[at]));
    }
    if let Some((slip, _)) = counts.slips.iter().find(|(_, shown)| *shown == 0) {
        return Err(format!("no block shows {slip:?}: the generator is to be mended"));
    }
    if let Some(number) = [0, 13, 14].into_iter().find(|&number| counts.answers[number] < count / 50) {
        return Err(format!("too few blocks have the answer {number}: the generator is to be mended"));
    }
    compare_large(ours, seed, count)
}
