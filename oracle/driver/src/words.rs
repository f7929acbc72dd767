//! Word operations (document 01, module 1) against the Rust's `Processor` and the f32 operations that it is made of.
use qcdsp::{Block, Processor};

use crate::ours::{Function, Ours};
use crate::random::Random;
use crate::shrink::{smaller_words, smallest};
use crate::spans;

#[derive(Debug, Clone, Copy, PartialEq, Eq)]
pub enum Operation {
    Add,
    Sub,
    Mul,
    Min,
    Max,
    Neg,
    Abs,
    SubBits,
}

use Operation::*;

pub const OPERATIONS: [Operation; 8] = [Add, Sub, Mul, Min, Max, Neg, Abs, SubBits];

impl Operation {
    fn function(self) -> Function {
        match self {
            Add => Function::Add,
            Sub => Function::Sub,
            Mul => Function::Mul,
            Min => Function::Min,
            Max => Function::Max,
            Neg => Function::Neg,
            Abs => Function::Abs,
            SubBits => Function::IntegerSub,
        }
    }

    pub fn is_unary(self) -> bool {
        matches!(self, Neg | Abs)
    }

    /// The same f32 operation as in host.rs.
    pub fn rust(self, [lhs, rhs]: [u32; 2]) -> u32 {
        let (a, b) = (f32::from_bits(lhs), f32::from_bits(rhs));
        match self {
            Add => a + b,
            Sub => a - b,
            Mul => a * b,
            Min => a.min(b),
            Max => a.max(b),
            Neg => -a,
            Abs => a.abs(),
            SubBits => f32::from_bits(a.to_bits().wrapping_sub(b.to_bits())),
        }
        .to_bits()
    }

    /// Document 01, "Domain of equality": min and max are left out at NaN and at zeros of opposite sign.
    pub fn is_compared(self, [lhs, rhs]: [u32; 2]) -> bool {
        let zeros = (lhs | rhs) << 1 == 0 && lhs != rhs;
        !matches!(self, Min | Max) || !(is_nan(lhs) || is_nan(rhs) || zeros)
    }

    /// What ours must answer where the Rust answers `rust`: the sign and payload of a NaN that add, sub and mul give
    /// are the processor's in Rust, and one word in ours.
    pub fn expected(self, rust: u32) -> u32 {
        if matches!(self, Add | Sub | Mul) && is_nan(rust) { 0x7fc0_0000 } else { rust }
    }

    /// A block whose output is the operation on the last sample and this one, or on the last one alone.
    fn block(self) -> Block {
        let binary = |kind: &str| format!(r#"{{"op": "binary", "kind": "{kind}", "lhs": 1, "rhs": 0}}"#);
        let node = match self {
            Neg => r#"{"op": "neg", "input": 1}"#.into(),
            Abs => r#"{"op": "abs", "input": 1}"#.into(),
            SubBits => binary("sub_bits"),
            _ => binary(&format!("{self:?}").to_lowercase()),
        };
        let json = format!(
            r#"{{"version": 2, "blob_name": "block", "name": "block", "category": "utility", "parameters": [],
                "states": [{{"initial": 0.0, "update": 0}}], "delays": [],
                "nodes": [{{"op": "input"}}, {{"op": "state", "index": 0}}, {node}], "output": 2}}"#
        );
        Block::from_json(&json).expect("the operation's block is valid")
    }
}

fn is_nan(word: u32) -> bool {
    f32::from_bits(word).is_nan()
}

/// Words of either sign at which operations turn.
#[rustfmt::skip]
pub fn specials() -> Vec<u32> {
    let positive = [
        // zero, subnormals, the smallest normals
        0x0000_0000, 0x0000_0001, 0x0000_0002, 0x0000_0003, 0x0040_0000, 0x007f_fffe, 0x007f_ffff,
        0x0080_0000, 0x0080_0001, 0x00ff_ffff, 0x0100_0000, 0x0100_0001,
        // squares around the smallest normal, halves of the unit in the last place of 1
        0x1a00_0000, 0x1f80_0000, 0x2000_0000, 0x3300_0000, 0x3380_0000, 0x3380_0001, 0x3400_0000,
        // a third, a half, neighbours of 1, up to 4.97
        0x3eaa_aaab, 0x3f00_0000, 0x3f7f_fffe, 0x3f7f_ffff, 0x3f80_0000, 0x3f80_0001, 0x3f80_0002,
        0x3fc0_0000, 0x3fff_ffff, 0x4000_0000, 0x4040_0000, 0x409f_0a3d,
        // where the unit in the last place becomes 1 and 2, and squares around the largest number
        0x4b00_0000, 0x4b7f_ffff, 0x4b80_0000, 0x4b80_0001, 0x5f00_0000, 0x5f7f_ffff,
        // recip's magic word, the largest numbers, infinity, NaNs
        0x7ef3_11c7, 0x7f00_0000, 0x7f7f_fffe, 0x7f7f_ffff,
        0x7f80_0000, 0x7f80_0001, 0x7fa0_0000, 0x7fc0_0000, 0x7fc0_0001, 0x7fff_ffff,
    ];
    positive.iter().flat_map(|&word| [word, word | 0x8000_0000]).collect()
}

/// Random bits; or operands whose sum or product rounds, cancels, goes to the ends or meets a special word.
pub fn random_pair(random: &mut Random, specials: &[u32]) -> [u32; 2] {
    let (a, b) = (random.word(), random.word());
    let exponent = (a >> 23 & 0xff) as i32;
    let with = |word: u32, exponent: i32| word & 0x807f_ffff | (exponent.clamp(0, 254) as u32) << 23;
    match random.below(8) {
        0 | 1 => [a, b],
        2 | 3 => [a, with(b, exponent + random.below(53) as i32 - 26)],
        4 => {
            // few significant bits, so that ties come up
            let b = with(b & !0 << random.below(23), exponent + random.below(53) as i32 - 26);
            [a & !0 << random.below(23), b]
        }
        // products around the smallest and the largest numbers
        5 if random.one_in(2) => [a, with(b, 127 - exponent + random.below(60) as i32 - 30)],
        5 => [a, with(b, 381 - exponent + random.below(8) as i32 - 4)],
        6 => [a, a.wrapping_add(random.below(5) as u32).wrapping_sub(2) ^ (b & 0x8000_0000)],
        _ if random.one_in(2) => [a, random.pick(specials)],
        _ => [random.pick(specials), b],
    }
}

#[derive(Default)]
struct Counts {
    equal: u64,
    left_out: u64,
}

/// Compares one operation on pairs for which the Rust's answers are known.
fn check(
    ours: &mut Ours,
    operation: Operation,
    pairs: &[[u32; 2]],
    rust: &[u32],
    counts: &mut Counts,
) -> Result<(), String> {
    let answers = answers(ours, operation, pairs);
    for ((&pair, &rust), &answer) in pairs.iter().zip(rust).zip(&answers) {
        if !operation.is_compared(pair) {
            counts.left_out += 1;
        } else if answer == operation.expected(rust) {
            counts.equal += 1;
        } else {
            let [lhs, rhs] = pair;
            let found = format!("{operation:?} {lhs:08x} {rhs:08x}: ours {answer:08x}, the Rust {rust:08x}");
            return Err(found + &smaller_difference(ours, operation, pair));
        }
    }
    Ok(())
}

fn answers(ours: &mut Ours, operation: Operation, pairs: &[[u32; 2]]) -> Vec<u32> {
    let part = |at: usize| pairs.iter().map(|pair| pair[at]).collect::<Vec<_>>();
    let (lhs, rhs) = (part(0), part(1));
    let operands: &[&[u32]] = if operation.is_unary() { &[&lhs] } else { &[&lhs, &rhs] };
    ours.words(operation.function(), operands)
}

/// The pair with the fewest bits set that is reached from a failing one and still fails.
fn smaller_difference(ours: &mut Ours, operation: Operation, pair: [u32; 2]) -> String {
    let mut fails = |&pair: &[u32; 2]| {
        let answer = answers(ours, operation, &[pair])[0];
        operation.is_compared(pair) && answer != operation.expected(operation.rust(pair))
    };
    let [lhs, rhs] = smallest(pair, smaller_words, &mut fails);
    if [lhs, rhs] == pair { String::new() } else { format!("\nsmallest: {lhs:08x} {rhs:08x}") }
}

/// All pairs of special words, each operation by the real `Processor`, over the graph and over the compiled kernel.
fn special_pairs(ours: &mut Ours) -> Result<(), String> {
    let specials = specials();
    let pairs: Vec<[u32; 2]> = specials.iter().flat_map(|&a| specials.iter().map(move |&b| [a, b])).collect();
    let mut counts = Counts::default();
    for operation in OPERATIONS {
        let block = operation.block();
        for mut processor in [Processor::new(block.clone()).unwrap(), Processor::compiled(block.clone()).unwrap()] {
            let answer = |&[lhs, rhs]: &[u32; 2]| {
                processor.process_sample(f32::from_bits(lhs));
                processor.process_sample(f32::from_bits(rhs)).to_bits()
            };
            let rust: Vec<u32> = pairs.iter().map(answer).collect();
            check(ours, operation, &pairs, &rust, &mut counts)?;
        }
    }
    let Counts { equal, left_out } = counts;
    println!(
        "words: {} special words in all pairs, 8 operations, both engines: {equal} answers equal, \
         {left_out} outside the domain",
        specials.len()
    );
    Ok(())
}

fn random_pairs(ours: &mut Ours, seed: u64, count: u64) -> Result<(), String> {
    const BATCH: u64 = 1 << 18;
    let specials = specials();
    let mut random = Random::new(seed);
    let mut counts = Counts::default();
    for start in (0..count).step_by(BATCH as usize) {
        let size = BATCH.min(count - start);
        let pairs: Vec<_> = (0..size).map(|_| random_pair(&mut random, &specials)).collect();
        for operation in OPERATIONS {
            let rust: Vec<u32> = pairs.iter().map(|&pair| operation.rust(pair)).collect();
            check(ours, operation, &pairs, &rust, &mut counts)?;
        }
    }
    let Counts { equal, left_out } = counts;
    println!("words: {count} random pairs, 8 operations: {equal} answers equal, {left_out} outside the domain");
    Ok(())
}

pub fn compare(ours: &mut Ours, seed: u64, count: u64) -> Result<(), String> {
    special_pairs(ours)?;
    spans::compare(ours, seed, count / 10)?;
    random_pairs(ours, seed, count)
}
