//! House files (document 01, "House file"): ours reads and writes as the reader and the writer of house.rs do, which are
//! written from the text alone, on good files and on damaged ones; every lent word is compared.
use std::fmt;

use qcdsp::tables::Tables;

use crate::blocks::{Words, rust_verdict};
use crate::file_cases;
use crate::file_shrink::smaller;
use crate::filing;
use crate::house::{self, BLOCK_WORDS, EFFECT, GRAPH, words_of};
use crate::ours::{Call, Function, Ours};
use crate::random::Random;
use crate::runs::{Question, header, tables};
use crate::shrink::smallest;

/// What a file holds.
#[derive(Debug, Clone, PartialEq, Eq)]
pub enum Content {
    Block(Tables),
    /// Its kind, 2 or 3, and its samples.
    Rendering(u32, Vec<u32>),
}

impl Content {
    pub fn file(&self) -> Vec<u8> {
        match self {
            Content::Block(block) => house::pack(EFFECT, &house::block_payload(block)),
            Content::Rendering(kind, samples) => house::pack(*kind, &house::rendering_payload(samples)),
        }
    }
}

/// A file for one of the readers.
#[derive(Debug, Clone)]
pub struct Reading {
    pub function: Function,
    pub file: Vec<u8>,
    /// How many words each table has that is lent, and the answer.
    pub lent: Vec<usize>,
    pub answer: usize,
    /// What the lent words are before the call.
    pub seed: u64,
}

/// Something for one of the writers.
#[derive(Debug, Clone)]
pub struct Writing {
    pub content: Content,
    /// How many bytes are lent for the file, and how many words for the answer.
    pub lent: usize,
    pub answer: usize,
    pub seed: u64,
}

#[derive(Debug, Clone)]
pub enum Case {
    Read(Reading),
    Write(Writing),
}

/// Words behind those that are lent, which no call may touch.
const BEHIND: usize = 4;

const TABLES: [&str; 4] = ["parameters", "states", "delays", "nodes"];

/// The words over the first of those that are lent, as far as there are such.
fn put(lent: &mut [u32], words: &[u32]) {
    lent.iter_mut().zip(words).for_each(|(lent, &word)| *lent = word);
}

fn random_words(random: &mut Random, count: usize) -> Vec<u32> {
    (0..count).map(|_| random.word()).collect()
}

impl Reading {
    /// The tables and the answer's words that the reader written from the text gives; "reading changes only as many table words as
    /// the file holds", and 13 is for a lent table shorter "than a file needs".
    fn expected(&self) -> Result<(Vec<u32>, Vec<Vec<u32>>), u32> {
        let (answer, read) = match self.function {
            Function::ReadBlock => {
                let block = house::read_block(&self.file)?;
                let read = [&block.parameters, &block.states, &block.delays, &block.nodes].map(Vec::clone);
                let counts = [3, 2, 2, 3].iter().zip(&read).map(|(width, table)| (table.len() / width) as u32);
                (header(&block).into_iter().chain(counts).collect(), read.to_vec())
            }
            _ => {
                let (kind, samples) = house::read_rendering(&self.file)?;
                (vec![kind, samples.len() as u32], vec![samples])
            }
        };
        let is_short = read.iter().zip(&self.lent).any(|(table, &lent)| lent < table.len());
        if is_short { Err(13) } else { Ok((answer, read)) }
    }

    pub fn question(&self) -> Question {
        let random = &mut Random::new(self.seed);
        let names = if self.function == Function::ReadBlock { &TABLES[..] } else { &["samples"] };
        let mut before: Vec<_> =
            names.iter().zip(&self.lent).map(|(name, &count)| (*name, random_words(random, count))).collect();
        before.push(("answer", random_words(random, self.answer)));
        before.push(("behind the answer", random_words(random, BEHIND)));
        let mut left = before.clone();
        let number = match self.expected() {
            Ok((answer, read)) => {
                left.iter_mut().zip(&read).for_each(|(table, words)| put(&mut table.1, words));
                put(&mut left[read.len()].1, &answer);
                0
            }
            Err(number) => {
                put(&mut left[names.len()].1, &[0]);
                number
            }
        };
        let file = ("file", words_of(&self.file));
        let slices = [vec![file], before].concat();
        Question { function: self.function, scalars: vec![self.file.len() as u32], slices, number, left }
    }
}

impl Writing {
    /// "Writing validates"; 13 is for a lent table shorter "than a file needs". The file, or a number and the first bad record.
    fn expected(&self) -> Result<Vec<u8>, (u32, u32)> {
        if let Content::Block(block) = &self.content {
            let verdict = rust_verdict(block);
            if verdict.number != 0 {
                return Err((verdict.number, verdict.index.unwrap_or(0)));
            }
        }
        let file = self.content.file();
        if self.lent < file.len() { Err((13, 0)) } else { Ok(file) }
    }

    pub fn question(&self) -> Question {
        let random = &mut Random::new(self.seed);
        let (function, scalars, slices) = match &self.content {
            Content::Block(block) => (Function::WriteBlock, header(block), tables(block)),
            Content::Rendering(GRAPH, samples) => (Function::WriteGraph, vec![], vec![("samples", samples.clone())]),
            Content::Rendering(_, samples) => (Function::WriteSteps, vec![], vec![("samples", samples.clone())]),
        };
        let before = vec![
            ("file", random_words(random, self.lent.div_ceil(4))),
            ("answer", random_words(random, self.answer)),
            ("behind the answer", random_words(random, BEHIND)),
        ];
        let mut left = before.clone();
        let number = match self.expected() {
            Ok(file) => {
                put(&mut left[0].1, &words_of(&file));
                let length = file.len() as u64;
                put(&mut left[1].1, &[length as u32, (length >> 32) as u32]);
                0
            }
            Err((number, index)) => {
                put(&mut left[1].1, &[index]);
                number
            }
        };
        let scalars = [scalars, vec![self.lent as u32]].concat();
        Question { function, scalars, slices: [slices, before].concat(), number, left }
    }
}

impl Case {
    pub fn question(&self) -> Question {
        match self {
            Case::Read(reading) => reading.question(),
            Case::Write(writing) => writing.question(),
        }
    }

    /// The difference that ours shows on the case, and the smallest case that shows one.
    pub fn difference(&self, ours: &mut Ours) -> Option<String> {
        let mut asked = |case: &Case| {
            let question = case.question();
            question.difference(&ours.call(question.call()))
        };
        asked(self)?;
        let case = smallest(self.clone(), smaller, |case| asked(case).is_some());
        Some(format!("{}\n{case}", asked(&case)?))
    }
}

impl fmt::Display for Case {
    fn fmt(&self, f: &mut fmt::Formatter) -> fmt::Result {
        match self {
            Case::Read(Reading { file, lent, answer, .. }) => {
                writeln!(f, "{} bytes, tables of {lent:?} words, an answer of {answer}", file.len())?;
                words_of(file).chunks(BLOCK_WORDS).enumerate().try_for_each(|(number, block)| {
                    let (check, words) = block.split_last().expect("chunks are not empty");
                    let held = words.iter().rposition(|&word| word != 0).map_or(0, |at| at + 1);
                    writeln!(f, "block {number}: {:x?}, {} of 0, {check:x}", &words[..held], words.len() - held)
                })
            }
            Case::Write(Writing { content: Content::Block(block), lent, answer, .. }) => {
                writeln!(f, "{}{lent} bytes, an answer of {answer} words", Words(block))
            }
            Case::Write(Writing { content: Content::Rendering(kind, samples), lent, answer, .. }) => {
                writeln!(f, "kind {kind}, samples {samples:x?}, {lent} bytes, an answer of {answer} words")
            }
        }
    }
}

/// How often each number was the answer: of a read block, a read rendering, a written block, a written rendering.
#[derive(Default)]
struct Counts {
    files: u64,
    bytes: u64,
    again: u64,
    answers: [[u64; 22]; 4],
}

const SUBJECTS: [&str; 4] = ["blocks read", "renderings read", "blocks written", "renderings written"];

impl Counts {
    fn add(&mut self, question: &Question) {
        let subject = match question.function {
            Function::ReadBlock => 0,
            Function::ReadRendering => 1,
            Function::WriteBlock => 2,
            _ => 3,
        };
        self.answers[subject][question.number as usize] += 1;
    }

    /// An answer that came up too seldom for the comparison to say much.
    fn rare(&self) -> Option<String> {
        let least = self.files / 100;
        let wanted: [&[u32]; 4] =
            [&[0, 13, 20, 21], &[0, 13, 20, 21], &[0, 1, 5, 6, 7, 8, 9, 10, 11, 12, 13], &[0, 13]];
        let rare = (0..4).flat_map(|subject| wanted[subject].iter().map(move |&number| (subject, number)));
        let (subject, number) = rare.into_iter().find(|&(subject, number)| {
            let share = if subject == 2 { 10 } else { 1 };
            self.answers[subject][number as usize] < least / share
        })?;
        Some(format!("too few {} have the answer {number}: the generator is to be mended", SUBJECTS[subject]))
    }
}

impl fmt::Display for Counts {
    fn fmt(&self, f: &mut fmt::Formatter) -> fmt::Result {
        let Counts { files, bytes, again, answers } = self;
        write!(
            f,
            "files: {files} files of {bytes} bytes; {again} damaged ones that are read were written again, byte for byte"
        )?;
        for (subject, answers) in SUBJECTS.iter().zip(answers) {
            let given = answers.iter().enumerate().filter(|&(_, &count)| count > 0);
            let given: Vec<String> = given.map(|(number, count)| format!("{number}: {count}")).collect();
            write!(f, "\nfiles: {subject}: {}; answers {}", answers.iter().sum::<u64>(), given.join(", "))?;
        }
        Ok(())
    }
}

/// "Reading back gives the same tables, and no other bytes do": what is read from a file is written as that file.
fn written_again(reading: &Reading) -> Option<Writing> {
    let content = match reading.function {
        Function::ReadBlock => Content::Block(house::read_block(&reading.file).ok()?),
        _ => {
            let (kind, samples) = house::read_rendering(&reading.file).ok()?;
            Content::Rendering(kind, samples)
        }
    };
    assert!(content.file() == reading.file, "the writer of house.rs gives other bytes than its reader takes");
    Some(Writing { content, lent: reading.file.len(), answer: reading.answer, seed: reading.seed })
}

/// A random file: it is written, damaged and read.
fn cases(random: &mut Random, counts: &mut Counts) -> Vec<Case> {
    let content = filing::content(random);
    let writing = filing::writing(random, content.clone());
    let (reading, is_damaged) = filing::reading(random, &content);
    counts.files += 1;
    counts.bytes += reading.file.len() as u64;
    let again = written_again(&reading).filter(|writing| is_damaged && writing.expected().is_ok());
    counts.again += u64::from(again.is_some());
    [Case::Write(writing), Case::Read(reading)].into_iter().chain(again.map(Case::Write)).collect()
}

const BATCH: u64 = 200;

pub fn compare(ours: &mut Ours, seed: u64, count: u64) -> Result<(), String> {
    println!("files: {}", file_cases::compare(ours)?);
    let mut counts = Counts::default();
    for start in (0..count).step_by(BATCH as usize) {
        let numbers = start..count.min(start + BATCH);
        let cases: Vec<Case> =
            numbers.flat_map(|number| cases(&mut Random::of_case(seed, number), &mut counts)).collect();
        let questions: Vec<Question> = cases.iter().map(Case::question).collect();
        let calls: Vec<Call> = questions.iter().map(Question::call).collect();
        let answers = ours.calls(&calls);
        for ((case, question), answer) in cases.iter().zip(&questions).zip(&answers) {
            if let Some(difference) = question.difference(answer) {
                return Err(format!("files {start}..: {}", case.difference(ours).unwrap_or(difference)));
            }
            counts.add(question);
        }
    }
    println!("{counts}");
    counts.rare().map_or(Ok(()), Err)
}
