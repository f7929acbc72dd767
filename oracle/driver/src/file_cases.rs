//! Each sentence of document 01's section "House file" by name: a good file or a good block, one change, and the answer that the text
//! gives. The answers stand here as numbers; the reader and the writer of house.rs must give them as well as ours.
use qcdsp::tables::Tables;

use crate::files::{Case, Content, Reading, Writing};
use crate::house::{BLOCK_BYTES, BLOCK_WORDS, EFFECT, GRAPH, STEPS, bytes_of, seal, words_of};
use crate::ours::{Call, Function, Ours};
use crate::random::Random;

/// Kernel K: "block A, version 1, category 10, stereo, as a file: used 12, check 0xFFFFFFE6".
const KERNEL_K: [u32; 15] = [EFFECT, 0, 12, 1, 10, 0, 0, 0, 0, 0, 1, 0, 0, 0, 0];
const KERNEL_K_CHECK: u32 = 0xffff_ffe6;

fn kernel_k() -> Vec<u32> {
    let mut words = KERNEL_K.to_vec();
    words.resize(BLOCK_WORDS - 1, 0);
    words.push(KERNEL_K_CHECK);
    words
}

fn block_a() -> Tables {
    Tables { version: 1, category: 10, nodes: vec![0, 0, 0], ..Tables::default() }
}

/// Two blocks that hold 40 nodes after the header, by hand: 124 words, and 5 more.
fn two_blocks() -> Vec<u32> {
    let mut first = vec![EFFECT, 0, 124, 1, 10, 0, 0, 0, 0, 0, 40, 0];
    first.resize(BLOCK_WORDS, 0);
    let mut second = vec![EFFECT, 1, 5];
    second.resize(BLOCK_WORDS, 0);
    seal(&mut first);
    seal(&mut second);
    [first, second].concat()
}

/// Tables of 1, 2, 3 and 4 records, each of its own words, of a block that is not valid: 9 + 3 + 4 + 6 + 12 words.
const FOUR_SIZES: [usize; 4] = [3, 4, 6, 12];

fn four_tables() -> Vec<u32> {
    let mut words = vec![EFFECT, 0, 34, 7, 99, 5, 6, 1, 2, 3, 4, 77];
    words.extend(100..125);
    words.resize(BLOCK_WORDS, 0);
    seal(&mut words);
    words
}

/// A rendering of one block, `samples` of them 9.
fn rendering(kind: u32, samples: usize) -> Vec<u32> {
    let mut words = vec![kind, 0, samples as u32 + 1, samples as u32];
    words.resize(4 + samples, 9);
    words.resize(BLOCK_WORDS, 0);
    seal(&mut words);
    words
}

/// 124 samples: 123 fit into the first block.
fn long_rendering(kind: u32) -> Vec<u32> {
    let mut words = rendering(kind, 123);
    words[3] = 124;
    seal(&mut words);
    let mut second = vec![kind, 1, 1, 9];
    second.resize(BLOCK_WORDS, 0);
    seal(&mut second);
    [words, second].concat()
}

type Change = fn(&mut Vec<u32>);

/// Sets words of a file and then the checks of its blocks.
fn sealed(words: &mut [u32], changes: &[(usize, u32)]) {
    changes.iter().for_each(|&(at, word)| words[at] = word);
    words.chunks_mut(BLOCK_WORDS).for_each(seal);
}

/// Kernel K for the reader of blocks, changed.
const OF_K: [(&str, u32, Change); 26] = [
    ("kernel K", 0, |_| {}),
    ("no bytes", 21, |words| words.clear()),
    ("a check one too large: the sum is 0", 20, |words| words[127] += 1),
    ("a check one too small", 20, |words| words[127] -= 1),
    ("a wrong check and a wrong kind", 20, |words| words[0] = 4),
    ("a wrong check and words behind those used", 20, |words| words[120] = 1),
    ("kind 0", 21, |words| sealed(words, &[(0, 0)])),
    ("a graph rendering", 21, |words| sealed(words, &[(0, 2)])),
    ("a step rendering", 21, |words| sealed(words, &[(0, 3)])),
    ("kind 4", 21, |words| sealed(words, &[(0, 4)])),
    ("kind 1 in its low byte", 21, |words| sealed(words, &[(0, 0x101)])),
    ("block number 1 first", 21, |words| sealed(words, &[(1, 1)])),
    ("block number 2^31", 21, |words| sealed(words, &[(1, 0x8000_0000)])),
    ("used 0", 21, |words| sealed(words, &[(2, 0)])),
    ("used 11, a word too few", 21, |words| sealed(words, &[(2, 11)])),
    ("used 13, a word too many", 21, |words| sealed(words, &[(2, 13)])),
    ("used 124", 21, |words| sealed(words, &[(2, 124)])),
    ("used 125", 21, |words| sealed(words, &[(2, 125)])),
    ("used 12 in its low byte", 21, |words| sealed(words, &[(2, 0x10c)])),
    ("the word behind those used", 21, |words| sealed(words, &[(15, 1)])),
    ("the last payload word", 21, |words| sealed(words, &[(126, 0x8000_0000)])),
    ("a node more than there are", 21, |words| sealed(words, &[(10, 2)])),
    ("a node fewer than there are", 21, |words| sealed(words, &[(10, 0)])),
    ("2^31 states more: the same modulo 2^32", 21, |words| sealed(words, &[(8, 0x8000_0000)])),
    ("2^31 delays more", 21, |words| sealed(words, &[(9, 0x8000_0000)])),
    ("all counts 2^32-1", 21, |words| sealed(words, &[(7, u32::MAX), (8, u32::MAX), (9, u32::MAX), (10, u32::MAX)])),
];

/// Two blocks for the reader of blocks, changed.
const OF_TWO: [(&str, u32, Change); 13] = [
    ("two blocks", 0, |_| {}),
    ("the first alone", 21, |words| words.truncate(BLOCK_WORDS)),
    ("the second alone", 21, |words| drop(words.drain(..BLOCK_WORDS))),
    ("the first uses 123", 21, |words| sealed(words, &[(2, 123)])),
    ("the first uses 125", 21, |words| sealed(words, &[(2, 125)])),
    ("the second's check is wrong", 20, |words| words[255] ^= 1),
    ("the first's number is wrong, then the second's check", 21, |words| {
        sealed(words, &[(1, 1)]);
        words[255] ^= 1;
    }),
    ("the first's check is wrong, then the second's number", 20, |words| {
        sealed(words, &[(129, 2)]);
        words[127] ^= 1;
    }),
    ("the second's check is wrong, and the payload too long", 20, |words| {
        sealed(words, &[(10, 1)]);
        words[255] ^= 1;
    }),
    ("number 0 twice", 21, |words| sealed(words, &[(129, 0)])),
    ("the second is a rendering's", 21, |words| sealed(words, &[(128, 2)])),
    ("swapped", 21, |words| words.rotate_left(BLOCK_WORDS)),
    ("a copy of the second behind it", 21, |words| words.extend_from_within(BLOCK_WORDS..)),
];

/// A step rendering of 124 samples for the reader of renderings, changed.
const OF_RENDERING: [(&str, u32, Change); 11] = [
    ("a step rendering of 124 samples", 0, |_| {}),
    ("a graph rendering", 0, |words| sealed(words, &[(0, 2), (128, 2)])),
    ("kind 2, then 3", 21, |words| sealed(words, &[(0, 2)])),
    ("kind 3, then 2", 21, |words| sealed(words, &[(128, 2)])),
    ("kind 1, then 3", 21, |words| sealed(words, &[(0, 1)])),
    ("an effect block's", 21, |words| sealed(words, &[(0, 1), (128, 1)])),
    ("a sample more than there are", 21, |words| sealed(words, &[(3, 125)])),
    ("a sample fewer than there are", 21, |words| sealed(words, &[(3, 123)])),
    ("2^32-1 samples", 21, |words| sealed(words, &[(3, u32::MAX)])),
    ("the first uses 123", 21, |words| sealed(words, &[(2, 123)])),
    ("the second uses 2", 21, |words| sealed(words, &[(130, 2)])),
];

/// Lent tables that are larger than any of these files needs.
const ROOM: usize = 130;

fn reading(function: Function, words: &[u32]) -> Reading {
    let tables = if function == Function::ReadBlock { 4 } else { 1 };
    let answer = if function == Function::ReadBlock { 9 } else { 2 };
    Reading { function, file: bytes_of(words), lent: vec![ROOM; tables], answer, seed: 1 }
}

/// The named answer by house.rs, and then by ours.
fn ask(ours: &mut Ours, name: &str, number: u32, case: Case) -> Result<(), String> {
    let question = case.question();
    if question.number != number {
        return Err(format!("{name}: the reading from the text says {}, not {number}", question.number));
    }
    case.difference(ours).map_or(Ok(()), |difference| Err(format!("{name}: {difference}")))
}

fn ask_changed(
    ours: &mut Ours,
    function: Function,
    good: &[u32],
    cases: &[(&str, u32, Change)],
) -> Result<usize, String> {
    for (name, number, change) in cases {
        let mut words = good.to_vec();
        change(&mut words);
        ask(ours, name, *number, Case::Read(reading(function, &words)))?;
    }
    Ok(cases.len())
}

/// "A length of 0 or not a multiple of 512 is 21 before all", a wrong check too.
fn ask_lengths(ours: &mut Ours) -> Result<usize, String> {
    let mut wrong = two_blocks();
    wrong[127] ^= 1;
    let lengths = [0, 1, 3, 4, 508, 511, 513, 516, 1023];
    for function in [Function::ReadBlock, Function::ReadRendering] {
        for length in lengths {
            let mut reading = reading(function, &wrong);
            reading.file.truncate(length);
            ask(ours, &format!("{length} bytes"), 21, Case::Read(reading))?;
        }
    }
    Ok(2 * lengths.len())
}

/// "shorter .. than a file needs": each table a word short, which a file's fault goes before; just enough; and the words behind those held.
fn ask_lent(ours: &mut Ours) -> Result<usize, String> {
    let exact = Reading { lent: FOUR_SIZES.to_vec(), ..reading(Function::ReadBlock, &four_tables()) };
    ask(ours, "tables just long enough, of a block that is not valid", 0, Case::Read(exact.clone()))?;
    let mut wrong = four_tables();
    sealed(&mut wrong, &[(2, 35)]);
    for table in 0..4 {
        let mut short = exact.clone();
        short.lent[table] -= 1;
        ask(ours, "a table a word short", 13, Case::Read(short.clone()))?;
        short.file = bytes_of(&wrong);
        ask(ours, "a table a word short, and a payload too long", 21, Case::Read(short))?;
    }
    let nothing = Reading { lent: vec![0, 0, 0, 3], answer: 0, ..reading(Function::ReadBlock, &kernel_k()) };
    ask(ours, "empty tables and no answer", 0, Case::Read(nothing))?;
    let samples = |lent| Reading { lent: vec![lent], ..reading(Function::ReadRendering, &long_rendering(GRAPH)) };
    ask(ours, "124 samples into as many words", 0, Case::Read(samples(124)))?;
    ask(ours, "124 samples into 123 words", 13, Case::Read(samples(123)))?;
    Ok(12)
}

/// Renderings of one block, with no samples, one, and as many as there is room for; and one block more.
fn ask_renderings(ours: &mut Ours) -> Result<usize, String> {
    for kind in [GRAPH, STEPS] {
        for samples in [0, 1, 123] {
            let words = rendering(kind, samples);
            ask(ours, "a rendering", 0, Case::Read(reading(Function::ReadRendering, &words)))?;
            ask(ours, "a rendering, for the reader of blocks", 21, Case::Read(reading(Function::ReadBlock, &words)))?;
            let content = Content::Rendering(kind, vec![9; samples]);
            ask_written(ours, "a rendering", &content, &words)?;
        }
        let mut more = rendering(kind, 123);
        more.resize(2 * BLOCK_WORDS, 0);
        sealed(&mut more, &[(128, kind), (129, 1)]);
        let more = Case::Read(reading(Function::ReadRendering, &more));
        ask(ours, "a block that uses nothing behind a full one", 21, more)?;
        let mut over = rendering(kind, 123);
        sealed(&mut over, &[(2, 125), (3, 124)]);
        ask(ours, "124 samples in one block", 21, Case::Read(reading(Function::ReadRendering, &over)))?;
        ask_written(ours, "two blocks of a rendering", &Content::Rendering(kind, vec![9; 124]), &long_rendering(kind))?;
    }
    let block = Case::Read(reading(Function::ReadRendering, &kernel_k()));
    ask(ours, "kernel K for the reader of renderings", 21, block)?;
    Ok(25)
}

/// The content's file is these words, with just enough bytes and with more; with a byte too few it is 13.
fn ask_written(ours: &mut Ours, name: &str, content: &Content, words: &[u32]) -> Result<(), String> {
    let need = words.len() * 4;
    let writing = |lent| Writing { content: content.clone(), lent, answer: 2, seed: 1 };
    let question = writing(need).question();
    if words_of(&content.file()) != words || question.left[0].1 != words || question.left[1].1 != [need as u32, 0] {
        return Err(format!("{name}: the writer from the text gives another file"));
    }
    ask(ours, name, 0, Case::Write(writing(need)))?;
    ask(ours, name, 0, Case::Write(writing(need + BLOCK_BYTES + 3)))?;
    ask(ours, name, 13, Case::Write(writing(need - 1)))?;
    ask(ours, name, 13, Case::Write(writing(0)))
}

/// "Writing validates": each answer of a block, also where there are no bytes for the file.
fn ask_invalid(ours: &mut Ours) -> Result<usize, String> {
    type Change = fn(&mut Tables);
    let cases: [(&str, u32, Change); 14] = [
        ("half a node", 1, |block| block.nodes.push(0)),
        ("category 14", 1, |block| block.category = 14),
        ("version 4", 2, |block| block.version = 4),
        ("a network in version 1", 3, |block| block.network = 1),
        ("a network node", 4, |block| block.nodes.extend([17, 0, 0])),
        ("mono in version 1", 5, |block| block.channels = 1),
        ("257 parameters", 6, |block| block.parameters = [0, 0x3f80_0000, 0].repeat(257)),
        ("an empty span", 7, |block| block.parameters = vec![0, 0x3f80_0000, 0, 0, 0, 0]),
        ("no nodes", 8, |block| block.nodes.clear()),
        ("output past the nodes", 8, |block| block.output = 1),
        ("an operand of its own", 9, |block| block.nodes.extend([12, 1, 0])),
        ("parameter 0 of none", 10, |block| block.nodes.extend([2, 0, 0])),
        ("an update past the nodes", 11, |block| block.states = vec![0, 1, 0, 2]),
        ("a delay of no length", 12, |block| block.delays = vec![5, 0, 5, 0, 0, 0]),
    ];
    for (name, number, change) in cases {
        let mut block = block_a();
        change(&mut block);
        for lent in [0, 511, 1 << 13] {
            let content = Content::Block(block.clone());
            ask(ours, name, number, Case::Write(Writing { content, lent, answer: 2, seed: 1 }))?;
        }
    }
    Ok(3 * cases.len())
}

/// "over 2^32-1 samples is 13", with room for their file. Ours is lent memory that is mapped and never touched; where that cannot be had it
/// is not asked.
fn ask_many_samples(ours: &mut Ours) -> Result<usize, String> {
    const NOT_MAPPED: u32 = u32::MAX;
    let answer =
        ours.call(Call { function: Function::WriteTooMany, scalars: vec![], slices: vec![&[7, 7]], written: 1 });
    match answer.result {
        13 if answer.slices[0] == [0, 7] => Ok(1),
        NOT_MAPPED => Ok(0),
        number => Err(format!("2^32 samples: ours answers {number} {:x?}, not 13", answer.slices)),
    }
}

/// How many bytes to lend: "124 payload words" of each 512 bytes.
fn ask_bytes(ours: &mut Ours) -> Result<usize, String> {
    let random = &mut Random::new(1);
    let counts = [0, 1, 2, 40, 122, 123, 124, 247, 248, 0x5555_5555, 0x8000_0000, u32::MAX - 1, u32::MAX];
    let mut asked: Vec<(Function, Vec<u32>)> = counts.map(|count| (Function::RenderingBytes, vec![count])).to_vec();
    asked.extend((0..500).map(|_| (Function::BlockBytes, (0..4).map(|_| random.pick(&counts)).collect())));
    let calls: Vec<Call> = asked
        .iter()
        .map(|(function, scalars)| Call {
            function: *function,
            scalars: scalars.clone(),
            slices: vec![&[7, 7]],
            written: 1,
        })
        .collect();
    for ((function, scalars), answer) in asked.iter().zip(ours.calls(&calls)) {
        let (widths, head) = if *function == Function::BlockBytes { ([3, 2, 2, 3], 9) } else { ([1; 4], 1) };
        let words = head + scalars.iter().zip(widths).map(|(&count, width)| u64::from(count) * width).sum::<u64>();
        let bytes = 512 * words.div_ceil(124);
        if answer.slices[0] != [bytes as u32, (bytes >> 32) as u32] {
            return Err(format!("{function:?} of {scalars:x?}: ours {:x?}, not {bytes:x}", answer.slices[0]));
        }
    }
    Ok(asked.len())
}

pub fn compare(ours: &mut Ours) -> Result<String, String> {
    let mut asked = ask_changed(ours, Function::ReadBlock, &kernel_k(), &OF_K)?;
    asked += ask_changed(ours, Function::ReadBlock, &two_blocks(), &OF_TWO)?;
    asked += ask_changed(ours, Function::ReadRendering, &long_rendering(STEPS), &OF_RENDERING)?;
    asked += ask_lengths(ours)? + ask_lent(ours)? + ask_renderings(ours)? + ask_invalid(ours)?;
    ask_written(ours, "kernel K", &Content::Block(block_a()), &kernel_k())?;
    let forty = Tables { nodes: vec![0; 3 * 40], ..block_a() };
    ask_written(ours, "two blocks", &Content::Block(forty), &two_blocks())?;
    asked += ask_bytes(ours)?;
    let many = ask_many_samples(ours)?;
    let not_asked = if many == 0 { ", 2^32 samples not asked for want of memory" } else { "" };
    Ok(format!("{} by name{not_asked}", asked + many + 2))
}
