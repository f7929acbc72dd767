//! Vectors with the Rust's answers, which programs of the gate replay: lines of one length, 32 bytes for words and 37
//! for blocks. The same bytes each time.
use qcdsp::tables::Tables;

use crate::blocks::{Case, Expected, Question, named_blocks, needed, random_block};
use crate::generate::tanh_block;
use crate::random::Random;
use crate::spans::{Test, random_span};
use crate::words::{OPERATIONS, Operation, random_pair, specials};

pub const SEED: u64 = 2026;

const WORDS: &str = "\
Answers of the Rust, printed
by: oracle/vectors words
A line of 32 bytes is one of
 add  lhs rhs result
 (sub mul min max as well;
  isub: integer sub)
 neg  word 0 result; abs too
 fin  word 0 1; 0: not finite
 good min max default: valid
 bad  span; span not valid
 in   min max value: inside a
 out  valid span; outside it
A NaN of add, sub and mul is
written 7fc00000. Min and max
meet no NaN and no zeros of
opposite sign.";

pub fn words() -> String {
    let specials = specials();
    let mut random = Random::new(SEED);
    let mut records = Vec::new();
    for operation in OPERATIONS {
        let name = match operation {
            Operation::SubBits => "isub".into(),
            _ => format!("{operation:?}").to_lowercase(),
        };
        let mut pairs: Vec<[u32; 2]> = match operation.is_unary() {
            true => specials.iter().map(|&word| [word, 0]).collect(),
            false => (0..100).map(|_| [random.pick(&specials), random.pick(&specials)]).collect(),
        };
        pairs.extend((0..650).map(|_| random_pair(&mut random, &specials)));
        pairs.truncate(if operation.is_unary() { 200 } else { 750 });
        for [lhs, rhs] in pairs {
            let rhs = if operation.is_unary() { 0 } else { rhs };
            if operation.is_compared([lhs, rhs]) {
                records.push((name.clone(), [lhs, rhs, operation.expected(operation.rust([lhs, rhs]))]));
            }
        }
    }
    for word in (0..100).map(|_| random.word()).chain(specials.iter().copied()) {
        records.push(("fin".into(), [word, 0, Test::Finite.rust([0, 0, word]).unwrap() as u32]));
    }
    for _ in 0..400 {
        let span = random_span(&mut random, &specials);
        let valid = Test::Span.rust(span).unwrap();
        records.push((if valid { "good" } else { "bad" }.into(), span));
        if let Some(inside) = Test::Range.rust(span) {
            records.push((if inside { "in" } else { "out" }.into(), span));
        }
    }
    let header = WORDS.lines().map(|line| format!("{:<31}\n", format!("# {line}")));
    let records = records.iter().map(|(name, [a, b, c])| format!("{name:<4} {a:08x} {b:08x} {c:08x}\n"));
    header.chain(records).inspect(|line| assert_eq!(line.len(), 32)).collect()
}

const BLOCKS: &str = "\
Answers of the Rust, printed by:
oracle/vectors blocks
A line has 37 bytes: a name, told
by its first letter, and up to
three words. The lines of a block:
 block: version category channels
 flag: network, output, lent words
 parameter: min max default
 state: initial update
 delay: length update
 node: code first second
 word: table, word; one more word
  of table 0 to 3, no whole record
 repeat: the line above it again,
  so many times
 expanded: a node of the expansion
 answer: 0, expanded nodes, output
  or number, index; it comes last
Lent words: the expansion table's
length. It stays as it was past
the expansion, and all of it where
the block is refused.
The Rust cannot be asked for 1 and
13: these are document 01's, and
the line above the block says so.
Its texts for 11 and 12 name no
record; the driver found which.";

/// The most words in one table; the program that replays them has room for a few more.
const ROOM: usize = 8_194;
/// The most words that are lent for an expansion, and where the block is refused.
const LENT: usize = 200;
const REFUSED_LENT: usize = 40;
/// Of the valid blocks: a code that one has among its nodes, how many, and at most how many lines each.
const VALID: [(Option<u32>, usize, usize); 5] =
    [(None, 85, 18), (Some(11), 12, 34), (Some(14), 12, 32), (Some(15), 9, 56), (Some(16), 9, 60)];
/// Of the blocks with each answer from 2 to 12: how many, and at most how many lines each.
const FAULTY: (usize, usize) = (12, 10);

/// Blocks at the limits of answers 6 and 12, and the first ones past them.
fn limit_blocks() -> Vec<Tables> {
    let with = |change: &dyn Fn(&mut Tables)| {
        let mut block = Tables { version: 2, category: 10, nodes: vec![0, 0, 0], ..Tables::default() };
        change(&mut block);
        block
    };
    let mut blocks = Vec::new();
    for past in 0..2 {
        blocks.push(with(&|block| block.parameters = [0, 0x3f80_0000, 0x3f00_0000].repeat(256 + past)));
        blocks.push(with(&|block| block.delays = vec![16_777_215, 0, 1 + past as u32, 0]));
        blocks.push(with(&|block| block.nodes = [[0, 0, 0].repeat(16 + past), [15, 0, 0].repeat(1_820)].concat()));
    }
    blocks.push(with(&|block| block.states = [0x3f80_0000, 1].repeat(4_097)));
    blocks.push(with(&|block| block.delays = [4_095, 1].repeat(4_097)));
    blocks
}

/// A block and its answer as lines. `None` where they are more than `most` lines, or too many words for a table.
fn block_lines(case: &Case, most: usize) -> Option<Vec<String>> {
    let Case { block, expansion, .. } = case;
    let Expected { verdict, said, expansion: after } = case.expected();
    let filled = if verdict.number == 0 { 3 * said[0] as usize } else { 0 };
    let tables = [
        ("parameter", &block.parameters[..], 3),
        ("state", &block.states, 2),
        ("delay", &block.delays, 2),
        ("node", &block.nodes, 3),
        ("expanded", &after[..filled], 3),
    ];
    if expansion.len() > ROOM || tables.iter().any(|(_, words, _)| words.len() > ROOM) {
        return None;
    }
    let mut lines = vec![
        block_line("block", &[block.version, block.category, block.channels]),
        block_line("flag", &[block.network, block.output, expansion.len() as u32]),
    ];
    for (number, (name, words, width)) in tables.into_iter().enumerate() {
        let mut records = words.chunks(width).peekable();
        while let Some(record) = records.next() {
            if record.len() < width {
                lines.extend(record.iter().map(|&word| block_line("word", &[number as u32, word])));
                continue;
            }
            lines.push(block_line(name, record));
            let more = std::iter::from_fn(|| records.next_if_eq(&record)).count();
            if more > 0 {
                lines.push(block_line("repeat", &[more as u32]));
            }
        }
    }
    lines.push(match verdict.number {
        0 => block_line("answer", &[0, said[0], said[1]]),
        number => block_line("answer", &[number, said[0]]),
    });
    (lines.len() <= most).then_some(lines)
}

pub fn comment(text: &str) -> String {
    format!("{:<36}\n", format!("# {text}"))
}

pub fn block_line(name: &str, words: &[u32]) -> String {
    let word = |at| words.get(at).copied().unwrap_or(0);
    format!("{name:<9} {:08x} {:08x} {:08x}\n", word(0), word(1), word(2))
}

/// Asks for the expansion with a few words to spare, and at most `most` in all.
fn spared(random: &mut Random, block: Tables, most: usize) -> Case {
    let spare = random.below(6) as i64;
    let room = most as i64 - needed(&block) as i64;
    Case::new(Question::Expand { spare: spare.min(room) }, block)
}

/// Random cases that have `number` as answer, a node of `code` if it is given, and at most so many lines.
fn short_cases(random: &mut Random, number: u32, code: Option<u32>, count: usize, most: usize) -> Vec<Case> {
    let mut cases = Vec::new();
    while cases.len() < count {
        let mut block = random_block(random, if matches!(number, 0 | 6) { usize::MAX } else { 1 });
        if number == 6 {
            // equal parameters, since they make one line
            block.parameters.extend([0, 0x3f80_0000, 0].repeat(257 - block.parameters.len() / 3));
        }
        let case = spared(random, block, if number == 0 { LENT } else { REFUSED_LENT });
        let verdict = case.expected().verdict;
        // two thirds of the first bad records are not the table's first
        let has_index = verdict.index.is_none_or(|index| index > 0 || cases.len() < count / 3);
        let has_code = code.is_none_or(|code| case.block.nodes.chunks(3).any(|node| node[0] == code));
        if verdict.number == number && has_index && has_code && block_lines(&case, most).is_some() {
            cases.push(case);
        }
    }
    cases
}

pub fn blocks() -> String {
    let mut random = Random::new(SEED);
    let named = named_blocks().into_iter().map(|(_, block)| block).chain(limit_blocks());
    let mut cases: Vec<Case> = named.map(|block| spared(&mut random, block, REFUSED_LENT)).collect();
    cases.retain(|case| block_lines(case, 30).is_some());
    for spare in [-1, -2, -108] {
        cases.push(Case::new(Question::Expand { spare }, tanh_block(1, 3)));
    }
    for case in short_cases(&mut random, 0, None, 4, 30) {
        cases.push(Case::new(Question::Expand { spare: -1 }, case.block));
    }
    for (code, count, most) in VALID {
        cases.extend(short_cases(&mut random, 0, code, count, most));
    }
    for number in 2..=12 {
        cases.extend(short_cases(&mut random, number, None, FAULTY.0, FAULTY.1));
    }
    let mut lines: Vec<String> = BLOCKS.lines().map(comment).collect();
    for (number, case) in (1..).zip(&cases) {
        let by = if matches!(case.expected().verdict.number, 1 | 13) { ", answer by document 01" } else { "" };
        lines.push(comment(&format!("block {number}{by}")));
        lines.extend(block_lines(case, ROOM).unwrap());
    }
    lines.iter().inspect(|line| assert_eq!(line.len(), 37, "{line}")).cloned().collect()
}
