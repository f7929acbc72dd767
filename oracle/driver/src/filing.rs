//! Random house files: what they hold, what is done to them, and what is lent for them.
use qcdsp::tables::Tables;

use crate::blocks::random_block;
use crate::files::{Content, Reading, Writing};
use crate::generate::{finite, span, update, valid};
use crate::house::{self, BLOCK_BYTES, BLOCK_WORDS, GRAPH, PAYLOAD_WORDS, STEPS, bytes_of, seal, words_of};
use crate::ours::Function;
use crate::random::Random;

/// Payloads about the ends of blocks.
const ENDS: [usize; 14] = [122, 123, 124, 125, 126, 246, 247, 248, 249, 250, 371, 372, 373, 1241];

pub fn content(random: &mut Random) -> Content {
    match random.below(10) {
        0 | 1 => Content::Block(valid(random)),
        2 => Content::Block(sized(random)),
        3 | 4 => Content::Block(random_block(random, 1)),
        5 => Content::Block(wild(random)),
        _ => rendering(random),
    }
}

/// A valid block whose payload has a number of words that is chosen first.
fn sized(random: &mut Random) -> Tables {
    let words = if random.one_in(3) { 14 + random.below(2_000) } else { random.pick(&ENDS) };
    let mut block = Tables { version: 2, category: 10, nodes: vec![0, 0, 0], ..Tables::default() };
    let mut rest = words - 9 - 3;
    while rest > 0 {
        let is_pair = rest == 2 || rest == 4 || rest != 3 && random.one_in(2);
        rest -= if is_pair { 2 } else { 3 };
        match (is_pair, random.one_in(2)) {
            (true, true) => block.states.extend([finite(random), update(random, 1)]),
            (true, false) => block.delays.extend([1 + random.below(1_000) as u32, update(random, 1)]),
            (false, true) if block.parameters.len() < 3 * 256 => block.parameters.extend(span(random)),
            (false, _) => block.nodes.extend([1, finite(random), 0]),
        }
    }
    block
}

/// Any words in tables of any size, empty ones too: "reading doesn't" validate.
fn wild(random: &mut Random) -> Tables {
    let most = random.pick(&[1, 4, 40, 400]);
    let [parameters, states, delays, nodes] = [3, 2, 2, 3].map(|width| {
        let count = random.below(most) * width;
        words(random, count)
    });
    let [version, category, channels, network, output] = [(); 5].map(|()| word(random));
    Tables { version, category, channels, network, output, parameters, states, delays, nodes }
}

fn rendering(random: &mut Random) -> Content {
    let count = match random.below(20) {
        0 => 0,
        1..=5 => random.pick(&ENDS) - 1,
        6 => random.below(5_000),
        _ => random.below(300),
    };
    Content::Rendering(random.pick(&[GRAPH, STEPS]), words(random, count))
}

fn words(random: &mut Random, count: usize) -> Vec<u32> {
    (0..count).map(|_| word(random)).collect()
}

fn word(random: &mut Random) -> u32 {
    match random.below(4) {
        0 => random.pick(&[0, 1, 0x3f80_0000, 0x7fff_ffff, 0x8000_0000, u32::MAX]),
        _ => random.word(),
    }
}

/// The content with room for its file: just enough, a byte too few, fewer, more.
pub fn writing(random: &mut Random, content: Content) -> Writing {
    let need = content.file().len();
    let lent = match random.below(8) {
        0 => need - 1,
        1 => random.below(need),
        2 | 3 => need + random.below(1_200),
        _ => need,
    };
    Writing { content, lent, answer: answer(random, 2), seed: random.next() }
}

/// The content's file, most often damaged, for the reader of its kind or the other, and whether it is damaged.
pub fn reading(random: &mut Random, content: &Content) -> (Reading, bool) {
    let good = content.file();
    let damages = random.pick(&[0, 0, 1, 1, 1, 2]) + usize::from(random.one_in(20));
    let mut file = good.clone();
    for _ in 0..damages {
        file = damaged(random, &file);
    }
    let is_block = matches!(content, Content::Block(_)) != random.one_in(30);
    let function = if is_block { Function::ReadBlock } else { Function::ReadRendering };
    let sizes =
        sizes(&file, is_block).or_else(|| sizes(&good, is_block)).unwrap_or(vec![5; if is_block { 4 } else { 1 }]);
    let lent = lent(random, sizes);
    let answer = answer(random, if is_block { 9 } else { 2 });
    let is_damaged = file != good;
    (Reading { function, file, lent, answer, seed: random.next() }, is_damaged)
}

/// How many words each table needs, where the file is read.
fn sizes(file: &[u8], is_block: bool) -> Option<Vec<usize>> {
    if is_block {
        let block = house::read_block(file).ok()?;
        return Some([&block.parameters, &block.states, &block.delays, &block.nodes].map(Vec::len).to_vec());
    }
    Some(vec![house::read_rendering(file).ok()?.1.len()])
}

/// As many words as are needed, in one table a word or some too few, or more in all.
fn lent(random: &mut Random, mut sizes: Vec<usize>) -> Vec<usize> {
    let table = random.below(sizes.len());
    match random.below(10) {
        0 | 1 => sizes[table] = sizes[table].saturating_sub(1),
        2 => sizes[table] = random.below(sizes[table] + 1),
        3..=5 => sizes.iter_mut().for_each(|size| *size += random.below(9)),
        _ => {}
    }
    sizes
}

/// Most often as many words as there are to say.
fn answer(random: &mut Random, said: usize) -> usize {
    match random.below(8) {
        0 => random.below(said),
        1 => said + random.below(4),
        _ => said,
    }
}

/// The file with one damage.
fn damaged(random: &mut Random, file: &[u8]) -> Vec<u8> {
    if file.len() < BLOCK_BYTES || random.one_in(8) {
        return cut(random, file);
    }
    let mut words = words_of(&file[..file.len() / BLOCK_BYTES * BLOCK_BYTES]);
    match random.below(8) {
        0 => flip(random, &mut words),
        1 => balanced_flips(random, &mut words),
        2 => frame(random, &mut words),
        3 => blocks(random, &mut words),
        4 => counts(random, &mut words),
        5 => other_counts(random, &mut words),
        6 => rest(random, &mut words),
        _ => used(random, &mut words),
    }
    bytes_of(&words)
}

/// Other lengths: none, fewer bytes, bytes behind the end.
fn cut(random: &mut Random, file: &[u8]) -> Vec<u8> {
    let mut file = file.to_vec();
    match random.below(6) {
        0 => file.clear(),
        1 => file.truncate(file.len().saturating_sub(1)),
        2 => file.truncate(random.below(file.len() + 1)),
        3 => file.push(0),
        4 => {
            let count = random.pick(&[4, 511, 512, 513, 1024]);
            file.extend(bytes_of(&words(random, 256)).iter().take(count));
        }
        _ => file.resize(file.len() + BLOCK_BYTES, 0),
    }
    file
}

/// A random block's words.
fn block<'a>(random: &mut Random, words: &'a mut [u32]) -> &'a mut [u32] {
    let count = words.len() / BLOCK_WORDS;
    let number = if random.one_in(2) { count - 1 } else { random.below(count) };
    &mut words[number * BLOCK_WORDS..(number + 1) * BLOCK_WORDS]
}

/// A bit of any word; half the time the check is made right again.
fn flip(random: &mut Random, words: &mut [u32]) {
    let block = block(random, words);
    let used = 3 + (block[2] as usize).min(PAYLOAD_WORDS);
    let at = if random.one_in(3) { random.below(BLOCK_WORDS) } else { random.below(used) };
    block[at] ^= 1 << random.below(32);
    if random.one_in(2) {
        seal(block);
    }
}

/// The same bit of two words of a block, set in the one and clear in the other: the sum stays.
fn balanced_flips(random: &mut Random, words: &mut [u32]) {
    let block = block(random, words);
    let bit = 1 << random.below(32);
    let (set, clear): (Vec<usize>, Vec<usize>) = (0..BLOCK_WORDS).partition(|&at| block[at] & bit != 0);
    if !set.is_empty() && !clear.is_empty() {
        block[random.pick(&set)] ^= bit;
        block[random.pick(&clear)] ^= bit;
    }
}

/// Another kind, number, used count or check.
fn frame(random: &mut Random, words: &mut [u32]) {
    let block = block(random, words);
    let at = random.pick(&[0, 0, 1, 2, BLOCK_WORDS - 1]);
    block[at] = match random.below(3) {
        0 => random.pick(&[0, 1, 2, 3, 4, 123, 124, 125, 0x100, 0x101, 0x8000_0001, u32::MAX]),
        1 => block[at].wrapping_add(random.pick(&[1, u32::MAX])),
        _ => random.word(),
    };
    if !random.one_in(4) {
        seal(block);
    }
}

/// Blocks swapped, doubled, left out; half the time numbered anew.
fn blocks(random: &mut Random, words: &mut Vec<u32>) {
    let mut all: Vec<Vec<u32>> = words.chunks(BLOCK_WORDS).map(<[u32]>::to_vec).collect();
    let (at, to) = (random.below(all.len()), random.below(all.len()));
    match random.below(3) {
        0 => all.swap(at, to),
        1 => all.insert(to, all[at].clone()),
        _ => drop(all.remove(at)),
    }
    if random.one_in(2) {
        for (number, block) in all.iter_mut().enumerate() {
            block[1] = number as u32;
            seal(block);
        }
    }
    *words = all.concat();
}

/// The place of the first count, and how many there are: a block's four, or a rendering's one.
fn places(words: &[u32]) -> (usize, usize) {
    if words[0] == 1 { (3 + 4, 4) } else { (3, 1) }
}

/// Any other count.
fn counts(random: &mut Random, words: &mut [u32]) {
    let (first, count) = places(words);
    let at = first + random.below(count);
    words[at] = match random.below(3) {
        0 => random.pick(&[0x5555_5555, 0x5555_5556, 0x7fff_ffff, 0x8000_0000, 0xffff_fffe, u32::MAX]),
        1 => random.word(),
        _ => words[at].wrapping_add(random.pick(&[1, 2, u32::MAX])),
    };
    seal(&mut words[..BLOCK_WORDS]);
}

/// Other counts of a block with the same sum of words, in full or only modulo 2^32.
fn other_counts(random: &mut Random, words: &mut [u32]) {
    let changes: [[u32; 4]; 8] = [
        [0, 0x8000_0000, 0, 0],
        [0, 0, 0x8000_0000, 0],
        [0, 0x8000_0000, 0x8000_0000, 0],
        [0xaaaa_aaab, 0, 0, 0x5555_5555],
        [0x5555_5555, 0, 0, 0xaaaa_aaab],
        [1, 0, 0, u32::MAX],
        [0, 1, u32::MAX, 0],
        [2, u32::MAX - 2, 0, 0],
    ];
    let change = random.pick(&changes);
    let (first, count) = places(words);
    for (word, change) in words[first..first + count].iter_mut().zip(change) {
        *word = word.wrapping_add(change);
    }
    seal(&mut words[..BLOCK_WORDS]);
}

/// A word behind the used ones that is not 0.
fn rest(random: &mut Random, words: &mut [u32]) {
    let block = block(random, words);
    let used = (block[2] as usize).min(PAYLOAD_WORDS - 1);
    let any = used + random.below(PAYLOAD_WORDS - used);
    let at = 3 + random.pick(&[used, any, PAYLOAD_WORDS - 1]);
    block[at] = word(random);
    if !random.one_in(8) {
        seal(block);
    }
}

/// The last block's used count, with the words that it then uses any or 0, and a sample count that fits half the time.
fn used(random: &mut Random, words: &mut [u32]) {
    let blocks = words.len() / BLOCK_WORDS;
    let last = &mut words[(blocks - 1) * BLOCK_WORDS..];
    let before = (last[2] as usize).min(PAYLOAD_WORDS);
    let used = random.pick(&[0, 1, before.saturating_sub(1), before + 1, PAYLOAD_WORDS, PAYLOAD_WORDS + 1]);
    last[2] = used as u32;
    for at in before.min(used)..PAYLOAD_WORDS {
        last[3 + at] = if at < used && random.one_in(2) { word(random) } else { 0 };
    }
    seal(last);
    if words[0] != 1 && random.one_in(2) {
        words[3] = (PAYLOAD_WORDS * (blocks - 1) + used).wrapping_sub(1) as u32;
        seal(&mut words[..BLOCK_WORDS]);
    }
}
