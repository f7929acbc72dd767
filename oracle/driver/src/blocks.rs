//! Validation and expansion of whole blocks (document 01, module 2) against the Rust's `validate` and `expanded`.
use std::fmt;

use qcdsp::Error;
use qcdsp::tables::Tables;

use crate::generate::{self, MOST_NODES, expanded_length, fault, tanh_block, valid};
use crate::ours::{Answer, Call, Function, Ours};
use crate::random::Random;
use crate::shrink::{smaller_blocks, smallest};

/// A number of document 01's table, 0 for valid, and for 7 and 9 to 12 the first bad record's index.
#[derive(Debug, Clone, Copy, PartialEq, Eq)]
pub struct Verdict {
    pub number: u32,
    pub index: Option<u32>,
}

impl Verdict {
    fn plain(number: u32) -> Self {
        Self { number, index: None }
    }

    fn at(number: u32, index: usize) -> Self {
        Self { number, index: Some(index as u32) }
    }
}

/// What the Rust says. It cannot hold what answer 1 is about, so that is document 01's own answer.
pub fn rust_verdict(tables: &Tables) -> Verdict {
    let Some(block) = tables.block(&[]) else {
        return Verdict::plain(1);
    };
    match block.validate() {
        Ok(()) => Verdict::plain(0),
        Err(Error::Invalid(text)) => of_text(tables, &text),
        Err(error) => panic!("the Rust refuses a block in another way: {error}"),
    }
}

/// The number that the Rust's text stands for. Its texts for 11 and 12 do not say which record is meant.
fn of_text(tables: &Tables, text: &str) -> Verdict {
    let plain = [
        ("unsupported IR version", 2),
        ("a network needs IR version 3", 3),
        ("a network node needs a network", 4),
        ("mono blocks, sub_bits,", 5),
        ("block is too large", 6),
        ("missing output node", 8),
    ];
    if let Some(&(_, number)) = plain.iter().find(|(start, _)| text.starts_with(start)) {
        return Verdict::plain(number);
    }
    let index = || {
        let digits = text.trim_start_matches(|c: char| !c.is_ascii_digit());
        let end = digits.find(|c: char| !c.is_ascii_digit()).unwrap_or(digits.len());
        digits[..end].parse().expect("the Rust's text has an index")
    };
    match text {
        _ if text.starts_with("invalid parameter \"p") => Verdict::at(7, index()),
        _ if text.starts_with("node ") => Verdict::at(9, index()),
        _ if text.starts_with("invalid node ") => Verdict::at(10, index()),
        _ if text.starts_with("invalid state") => Verdict::at(11, first_bad_state(tables)),
        _ if text.starts_with("invalid delay") => Verdict::at(12, first_bad_delay(tables)),
        _ => panic!("the Rust has another text: {text}"),
    }
}

fn first_bad_state(tables: &Tables) -> usize {
    let nodes = tables.nodes.len() / 3;
    let is_bad = |state: &[u32]| !f32::from_bits(state[0]).is_finite() || state[1] as usize > nodes;
    tables.states.chunks(2).position(is_bad).expect("the Rust found a bad state")
}

fn first_bad_delay(tables: &Tables) -> usize {
    let nodes = tables.nodes.len() / 3;
    let mut total = 0;
    let is_bad = |delay: &[u32]| {
        total += u64::from(delay[0]);
        delay[0] == 0 || total > 16 * 1024 * 1024 || delay[1] as usize > nodes
    };
    tables.delays.chunks(2).position(is_bad).expect("the Rust found a bad delay")
}

/// What is asked about a block.
#[derive(Debug, Clone, Copy, PartialEq, Eq)]
pub enum Question {
    Validate,
    /// With an expansion table of this many words more, or less, than the expansion needs.
    Expand {
        spare: i64,
    },
}

/// One question about one block, and the expansion table that is lent.
pub struct Case {
    question: Question,
    pub block: Tables,
    pub expansion: Vec<u32>,
}

/// What the Rust answers: its verdict, the two lent answer words, and the expansion table afterwards.
pub struct Expected {
    pub verdict: Verdict,
    pub said: [u32; 2],
    pub expansion: Vec<u32>,
}

/// How many words the block's expansion has; those of the largest where it would be too large.
pub fn needed(block: &Tables) -> usize {
    3 * block.nodes.chunks(3).map(|node| expanded_length(node[0])).sum::<usize>().min(MOST_NODES)
}

/// What the words of an answer and of an expansion are before the call.
const LENT: u32 = 0xa5a5_0000;

impl Case {
    pub fn new(question: Question, block: Tables) -> Self {
        let length = match question {
            Question::Validate => 0,
            Question::Expand { spare } => (needed(&block) as i64 + spare).max(0) as u32,
        };
        Self { question, block, expansion: (0..length).map(|at| LENT + at).collect() }
    }

    pub fn call(&self) -> Call<'_> {
        let block = &self.block;
        let scalars = vec![block.version, block.category, block.channels, block.network, block.output];
        let tables: [&[u32]; 4] = [&block.parameters, &block.states, &block.delays, &block.nodes];
        let mut slices = tables.to_vec();
        if self.question != Question::Validate {
            slices.push(&self.expansion);
        }
        slices.push(&[LENT, LENT]);
        let (function, written) = match self.question {
            Question::Validate => (Function::Validate, 1),
            Question::Expand { .. } => (Function::Expand, 2),
        };
        Call { function, scalars, slices, written }
    }

    pub fn expected(&self) -> Expected {
        let mut verdict = rust_verdict(&self.block);
        let mut expansion = self.expansion.clone();
        let mut said = [LENT; 2];
        if self.question != Question::Validate && verdict.number == 0 {
            let expanded = Tables::of(&self.block.block(&[]).unwrap().expanded());
            if expansion.len() < expanded.nodes.len() {
                verdict = Verdict::plain(13);
            } else {
                expansion[..expanded.nodes.len()].copy_from_slice(&expanded.nodes);
                said = [expanded.nodes.len() as u32 / 3, expanded.output];
            }
        }
        if verdict.number != 0 {
            said[0] = verdict.index.unwrap_or(0);
        }
        Expected { verdict, said, expansion }
    }

    /// Our answer against the Rust's, which is given back. Every lent word is compared.
    fn check(&self, answer: &Answer) -> Result<Verdict, String> {
        let Expected { verdict, said, expansion } = self.expected();
        let ours = answer.slices.last().unwrap();
        if answer.result != verdict.number || ours[..] != said {
            return Err(format!("ours {} {ours:x?}, the Rust {} {said:x?}", answer.result, verdict.number));
        }
        if self.question != Question::Validate && answer.slices[0] != expansion {
            let at = (0..expansion.len()).find(|&at| answer.slices[0][at] != expansion[at]).unwrap();
            let (ours, rust) = (answer.slices[0][at], expansion[at]);
            return Err(format!("word {at} of the expansion table: ours {ours:08x}, the Rust {rust:08x}"));
        }
        Ok(verdict)
    }

    /// The smallest block with the same question that shows a difference, and what it is.
    fn difference(&self, ours: &mut Ours) -> String {
        let question = self.question;
        let mut asked = |block: &Tables| {
            let case = Case::new(question, block.clone());
            case.check(&ours.call(case.call())).err()
        };
        let block = smallest(self.block.clone(), smaller_blocks, |block| asked(block).is_some());
        format!("{question:?}: {}\n{}", asked(&block).unwrap(), Words(&block))
    }
}

/// A block as words, the way document 01 lays it out.
pub struct Words<'a>(pub &'a Tables);

impl fmt::Display for Words<'_> {
    fn fmt(&self, f: &mut fmt::Formatter) -> fmt::Result {
        let block = self.0;
        let Tables { version, category, channels, network, output, .. } = block;
        writeln!(f, "version {version} category {category} channels {channels} flag {network} output {output}")?;
        let tables = [
            ("parameter", &block.parameters, 3),
            ("state", &block.states, 2),
            ("delay", &block.delays, 2),
            ("node", &block.nodes, 3),
        ];
        for (name, words, width) in tables {
            for (index, record) in words.chunks(width).enumerate() {
                let record: Vec<String> = record.iter().map(|word| format!("{word:08x}")).collect();
                writeln!(f, "{name} {index}: {}", record.join(" "))?;
            }
        }
        Ok(())
    }
}

/// How often each number was the answer.
#[derive(Default)]
struct Counts([u64; 14]);

impl Counts {
    fn total(&self) -> u64 {
        self.0.iter().sum()
    }
}

impl fmt::Display for Counts {
    fn fmt(&self, f: &mut fmt::Formatter) -> fmt::Result {
        let given = self.0.iter().enumerate().filter(|&(_, &count)| count > 0);
        let given: Vec<String> = given.map(|(number, count)| format!("{number}: {count}")).collect();
        write!(f, "{}", given.join(", "))
    }
}

fn compare_all(ours: &mut Ours, cases: &[Case], counts: &mut Counts) -> Result<(), String> {
    let calls: Vec<Call> = cases.iter().map(Case::call).collect();
    let answers = ours.calls(&calls);
    for (case, answer) in cases.iter().zip(&answers) {
        match case.check(answer) {
            Ok(verdict) => counts.0[verdict.number as usize] += 1,
            Err(_) => return Err(case.difference(ours)),
        }
    }
    Ok(())
}

/// Cases made one by one from the seed and their number, asked in batches.
fn compare_random(
    ours: &mut Ours,
    seed: u64,
    count: u64,
    make: impl Fn(&mut Random) -> Case,
) -> Result<Counts, String> {
    const BATCH: u64 = 1_000;
    let mut counts = Counts::default();
    for start in (0..count).step_by(BATCH as usize) {
        let numbers = start..count.min(start + BATCH);
        let cases: Vec<Case> = numbers.clone().map(|number| make(&mut Random::of_case(seed, number))).collect();
        compare_all(ours, &cases, &mut counts).map_err(|said| format!("case {numbers:?} of {count}: {said}"))?;
    }
    Ok(counts)
}

/// A valid block, or one with one to three faults.
pub fn random_block(random: &mut Random, faulty_in: usize) -> Tables {
    let mut block = valid(random);
    if random.one_in(faulty_in) {
        for _ in 0..1 + random.below(3) {
            let number = random.below(11) as u32 + 2;
            fault(random, &mut block, number);
        }
    }
    block
}

/// Blocks that document 01 names, with its answers.
pub fn named_blocks() -> Vec<(u32, Tables)> {
    let plain = Tables { version: 1, category: 10, nodes: vec![0, 0, 0], ..Tables::default() };
    let with = |change: &dyn Fn(&mut Tables)| {
        let mut block = plain.clone();
        change(&mut block);
        block
    };
    vec![
        (0, plain.clone()),
        (8, with(&|block| block.nodes.clear())),
        (0, tanh_block(1820, 16)),
        (6, tanh_block(1820, 17)),
        (0, with(&|block| block.nodes.resize(3 * MOST_NODES, 0))),
        (6, with(&|block| block.nodes.resize(3 * MOST_NODES + 3, 0))),
        (1, with(&|block| block.category = 14)),
        (1, with(&|block| block.channels = 2)),
        (1, with(&|block| block.network = 2)),
        (1, with(&|block| block.nodes[0] = 18)),
        (1, with(&|block| block.nodes[1] = 1)),
        (1, with(&|block| block.nodes[2] = 1)),
        (1, with(&|block| block.nodes.push(0))),
        (1, with(&|block| block.parameters.push(0))),
        (1, with(&|block| block.states.push(0))),
        (1, with(&|block| block.delays.push(0))),
    ]
}

/// Blocks that document 01 names, and forms that the Rust's types cannot hold.
fn named(ours: &mut Ours, seed: u64, questions: &[Question]) -> Result<(), String> {
    let mut counts = Counts::default();
    for (number, block) in named_blocks() {
        for &question in questions {
            let case = Case::new(question, block.clone());
            let verdict = case.check(&ours.call(case.call())).map_err(|_| case.difference(ours))?;
            if verdict.number != number {
                return Err(format!("document 01 says {number}, not {}\n{}", verdict.number, Words(&block)));
            }
            counts.0[number as usize] += 1;
        }
    }
    println!("blocks: {} questions about blocks that document 01 names; answers {counts}", counts.total());
    let make = |random: &mut Random| {
        let mut block = random_block(random, 2);
        fault(random, &mut block, 1);
        Case::new(random.pick(questions), block)
    };
    let counts = compare_random(ours, seed, 20_000, make)?;
    println!("blocks: {} of a form that the Rust cannot hold; answers {counts}", counts.total());
    Ok(())
}

/// Validation: `count` random blocks, half of them faulty.
fn compare_validation(ours: &mut Ours, seed: u64, count: u64) -> Result<(), String> {
    named(ours, seed, &[Question::Validate])?;
    let make = |random: &mut Random| Case::new(Question::Validate, random_block(random, 2));
    let counts = compare_random(ours, seed, count, make)?;
    println!("blocks: {} validated; answers {counts}", counts.total());
    if let Some(number) = (2..=12).find(|&number| counts.0[number] < count / 100) {
        return Err(format!("too few blocks have the answer {number}: the generator is to be mended"));
    }
    Ok(())
}

/// Expansion: `count` random blocks, one in ten of them faulty, some with a table that is too short, and the largest.
fn compare_expansion(ours: &mut Ours, seed: u64, count: u64) -> Result<(), String> {
    named(ours, seed, &[Question::Expand { spare: 0 }, Question::Expand { spare: 7 }])?;
    let make = |random: &mut Random| {
        let spare = match random.below(10) {
            0 => -1,
            1 => -(random.below(1000) as i64),
            2 => random.below(100) as i64,
            _ => 0,
        };
        Case::new(Question::Expand { spare }, random_block(random, 10))
    };
    let counts = compare_random(ours, seed, count, make)?;
    println!("blocks: {} expanded word for word; of {} answers: {counts}", counts.0[0], counts.total());
    let sizes = [(1820, 16), (1, 65_500), (910, 32_776), (1800, 736)];
    let make = |random: &mut Random| {
        let (tanh, plain) = random.pick(&sizes);
        let mut block = tanh_block(tanh, plain);
        for node in block.nodes.chunks_mut(3).filter(|node| node[0] == 0) {
            node.copy_from_slice(&[1, generate::finite(random), 0]);
        }
        Case::new(Question::Expand { spare: 0 }, block)
    };
    let counts = compare_random(ours, seed, count / 10_000 + 4, make)?;
    println!("blocks: {} of 65,536 expanded nodes word for word", counts.0[0]);
    Ok(())
}

pub fn compare(ours: &mut Ours, seed: u64, count: u64) -> Result<(), String> {
    compare_validation(ours, seed, count)?;
    compare_expansion(ours, seed, count * 3 / 10)
}
