//! Vectors with the Rust's compiles, which a program of the gate replays: lines of 37 bytes, as for blocks.
use qcdsp::tables::Tables;

use crate::compile_blocks::{double_masks, mask, narrow, single_masks, small};
use crate::compile_cases::{printed_cases, slip_cases, swap};
use crate::compiles::{Case, Said, rust_says};
use crate::generate::fault;
use crate::lowering::{EVENTS, Event, Lowered, lower};
use crate::random::Random;
use crate::vectors::{SEED, block_line, comment};

const COMPILES: &str = "\
Answers of the Rust, printed by:
oracle/vectors compiles
A line has 37 bytes: a name, told
by its first letter, and up to
three words. The lines of a call:
 block: version category channels
 flag: network, output, mask
 parameter: min max default
 state: initial update
 delay: length update
 node: code first second
 repeat: the line above it again,
  so many times
 given: expanded nodes; the table
  lent a word short (1 expansion,
  2 steps, 3 instructions, 4 work;
  0 none); spare words in the rest
 listed: a step
 instr: an instruction
 counts: control steps, sample
  steps, instructions
 kept: control slots, spill slots,
  most registers held
 answer: number, index; comes last
Listed to kept stand where the
number is 0, given where it is not
1 to 12. Work is zeros afterwards,
steps and instructions past the
last too, and all of them for 14.
Any other refusal changes nothing.
The Rust cannot be asked for 13:
it is document 01's.";

/// A block with its mask, and how the tables are lent: the one that is a word short, and the spare words of the others.
struct Vector {
    block: Tables,
    mask: u32,
    short: usize,
    spare: u32,
}

impl Vector {
    fn of(block: Tables, mask: u32) -> Self {
        Self { block, mask, short: 0, spare: 0 }
    }

    /// The case as lines.
    fn lines(&self) -> Vec<String> {
        let Vector { block, mask, short, spare } = self;
        let mut lines = vec![
            block_line("block", &[block.version, block.category, block.channels]),
            block_line("flag", &[block.network, block.output, *mask]),
        ];
        let tables = [
            ("parameter", &block.parameters, 3),
            ("state", &block.states, 2),
            ("delay", &block.delays, 2),
            ("node", &block.nodes, 3),
        ];
        for (name, words, width) in tables {
            put_records(&mut lines, name, words, width);
        }
        let (expanded, number) = match rust_says(block, *mask) {
            Said::Refused { number, index } => {
                lines.push(block_line("answer", &[number, index]));
                return lines;
            }
            Said::Locked { expanded } => (expanded, 14),
            Said::Compiled { expanded, .. } => (expanded, 0),
        };
        lines.push(block_line("given", &[expanded.nodes.len() as u32 / 3, *short as u32, *spare]));
        let number = if *short > 0 { 13 } else { number };
        if let Said::Compiled { lowered: Lowered { kernel, registers }, .. } = rust_says(block, *mask)
            && number == 0
        {
            put_records(&mut lines, "listed", &kernel.steps, 2);
            put_records(&mut lines, "instr", &kernel.instructions, 2);
            lines.push(block_line("counts", &kernel.counts[..3]));
            lines.push(block_line("kept", &[kernel.counts[3], kernel.counts[4], registers]));
        }
        lines.push(block_line("answer", &[number]));
        lines
    }
}

/// The records, each a line; equal ones that follow each other are a line and their number.
fn put_records(lines: &mut Vec<String>, name: &str, words: &[u32], width: usize) {
    let mut records = words.chunks(width).peekable();
    while let Some(record) = records.next() {
        lines.push(block_line(name, record));
        let more = std::iter::from_fn(|| records.next_if_eq(&record)).count();
        if more > 0 {
            lines.push(block_line("repeat", &[more as u32]));
        }
    }
}

/// Out of so many random blocks, for each event the ones with the fewest lines that show it.
const CANDIDATES: u64 = 20_000;
const OF_EACH_EVENT: usize = 12;
const MOST_LINES: usize = 200;

fn of_events() -> Vec<Vector> {
    let mut shown: Vec<Vec<(usize, u64)>> = vec![Vec::new(); EVENTS.len()];
    for number in 0..CANDIDATES {
        let vector = candidate(number);
        // what a block that is refused shows are its ways to 14
        let (expanded, from) = match rust_says(&vector.block, vector.mask) {
            Said::Refused { .. } => continue,
            Said::Locked { expanded } => (expanded, Event::LockedInControl as usize),
            Said::Compiled { expanded, .. } => (expanded, 0),
        };
        let lines = vector.lines().len();
        let seen = lower(&expanded, vector.mask as u16, None).1;
        for at in (from..EVENTS.len()).filter(|&at| seen[at] > 0 && lines <= MOST_LINES) {
            shown[at].push((lines, number));
        }
    }
    let mut taken: Vec<u64> = Vec::new();
    // the rarest first, so that what shows much is not taken for what is shown often
    shown.sort_by_key(Vec::len);
    for mut shown in shown {
        shown.sort();
        let has = shown.iter().filter(|(_, number)| taken.contains(number)).count();
        let new = shown.iter().map(|&(_, number)| number).filter(|number| !taken.contains(number));
        assert!(shown.len() >= OF_EACH_EVENT, "too few candidates show an event");
        let new: Vec<u64> = new.take(OF_EACH_EVENT.saturating_sub(has)).collect();
        taken.extend(new);
    }
    taken.into_iter().map(candidate).collect()
}

fn candidate(number: u64) -> Vector {
    let random = &mut Random::of_case(SEED, number);
    let (block, mask) = match random.below(6) {
        0 => (narrow(random), random.pick(&single_masks())),
        1 => (narrow(random), random.pick(&double_masks())),
        2 => (small(random), random.pick(&double_masks())),
        _ => (small(random), mask(random)),
    };
    Vector { block, mask, short: 0, spare: random.below(4) as u32 }
}

/// A few of each answer that a block has, which replay_blocks has more of.
fn refused() -> Vec<Vector> {
    let random = &mut Random::new(SEED);
    let mut vectors: Vec<Vector> = Vec::new();
    for number in 2..=12 {
        let is_asked = |vector: &Vector| {
            let is_number =
                matches!(rust_says(&vector.block, vector.mask), Said::Refused { number: said, .. } if said == number);
            is_number && vector.lines().len() <= 14
        };
        let mut faulty = || {
            let mut block = narrow(random);
            fault(random, &mut block, number);
            Vector::of(block, mask(random))
        };
        vectors.extend(std::iter::repeat_with(&mut faulty).take(20_000).find(is_asked));
    }
    vectors
}

pub fn compiles() -> String {
    let named = printed_cases().into_iter().chain(slip_cases());
    let mut vectors: Vec<Vector> = named.map(|Case { block, mask, .. }| Vector::of(block, mask)).collect();
    for short in 1..=4 {
        vectors.push(Vector { block: swap(), mask: 0xffff, short, spare: 2 });
        vectors.push(Vector { block: swap(), mask: 0, short, spare: 0 });
    }
    for mask in [0, 0xffff_0000, 0xffff_0001, 0x0001_0003] {
        vectors.push(Vector { block: swap(), mask, short: 0, spare: 3 });
    }
    vectors.extend(refused());
    vectors.extend(of_events());
    let mut lines: Vec<String> = COMPILES.lines().map(comment).collect();
    for (number, vector) in (1..).zip(&vectors) {
        lines.push(comment(&format!("call {number}")));
        lines.extend(vector.lines());
    }
    lines.iter().inspect(|line| assert_eq!(line.len(), 37, "{line}")).cloned().collect()
}
