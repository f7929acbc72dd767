//! Random blocks that play: parameter values, memories and signals, most of them so tame that many samples stay in the
//! domain of equality.
use qcdsp::Memories;
use qcdsp::tables::Tables;

use crate::generate::{self, finite};
use crate::random::Random;
use crate::runs::{Case, after, lent};
use crate::shrink::smaller_blocks;

#[derive(Debug, Clone)]
pub struct Play {
    pub block: Tables,
    pub settings: Vec<u32>,
    pub memories: Memories,
    pub input: Vec<u32>,
    /// With the flag set a word for each sample.
    pub network: Vec<u32>,
    /// How many words more than it needs each lent table has.
    pub spare: usize,
    /// What the budget has left over.
    pub extra: u32,
}

impl Play {
    /// The network words of a call of so many samples; with the flag clear their number is free.
    pub fn sent(&self, samples: usize) -> Vec<u32> {
        if self.block.network == 0 {
            return lent(self.spare);
        }
        let mut words = self.network.clone();
        words.truncate(samples);
        let missing = samples - words.len();
        words.extend(lent(missing));
        words
    }
}

/// The memories that a block starts with.
pub fn start(block: &Tables) -> Memories {
    let cells: u32 = block.delays.chunks(2).map(|delay| delay[0]).sum();
    Memories {
        held: block.states.chunks(2).map(|state| state[0]).collect(),
        area: vec![0; cells as usize],
        cursors: vec![0; block.delays.len() / 2],
    }
}

pub fn uniform(random: &mut Random, low: f32, high: f32) -> f32 {
    let part = random.word() as f32 / u32::MAX as f32;
    (low + (high - low) * part).clamp(low, high)
}

const SPECIALS: [u32; 12] = [
    0,
    0x8000_0000,
    0x3f80_0000,
    0xbf80_0000,
    0x3f00_0000,
    0x4000_0000,
    0x0000_0001,
    0x8000_0001,
    0x007f_ffff,
    0x0080_0000,
    0x4120_0000,
    0xc120_0000,
];

fn tame(random: &mut Random) -> u32 {
    match random.below(8) {
        0 => random.pick(&SPECIALS),
        1 => uniform(random, -100.0, 100.0).to_bits(),
        _ => uniform(random, -1.5, 1.5).to_bits(),
    }
}

fn span(random: &mut Random) -> [u32; 3] {
    let min = uniform(random, -2.0, 2.0);
    let max = min + uniform(random, 0.1, 4.0);
    [min.to_bits(), max.to_bits(), uniform(random, min, max).to_bits()]
}

/// A valid block with short delays.
fn block(random: &mut Random) -> Tables {
    let is_wild = random.one_in(10);
    let version = random.below(3) as u32 + 1;
    let network = (version == 3 && random.one_in(4)) as u32;
    let category = if version == 1 { random.pick(&[0, 4, 6, 7, 10, 11, 12]) } else { random.below(14) as u32 };
    let mut block = Tables { version, category, channels: network, network, ..Tables::default() };
    let [parameters, states, delays] = [random.below(4), random.below(5), random.below(4)];
    for _ in 0..parameters {
        block.parameters.extend(if is_wild { generate::span(random) } else { span(random) });
    }
    let count = if random.one_in(20) { 1 + random.below(100) } else { 1 + random.below(20) };
    for index in 0..count {
        let mut node = generate::node(random, &block, index, parameters, states, delays);
        if !is_wild {
            match node[0] {
                1 => node[1] = tame(random),
                10 if !random.one_in(4) => node[0] = 5 + random.below(3) as u32,
                _ => {}
            }
        }
        block.nodes.extend(node);
    }
    let is_swapped = states >= 2 && random.one_in(3);
    if is_swapped {
        block.nodes.extend([3, 0, 0, 3, 1, 0]);
    }
    let nodes = block.nodes.len() / 3;
    for _ in 0..states {
        let initial = if is_wild { finite(random) } else { tame(random) };
        let update = generate::update(random, nodes);
        block.states.extend([initial, update]);
    }
    if is_swapped {
        block.states[1] = nodes as u32;
        block.states[3] = nodes as u32 - 1;
    }
    for _ in 0..delays {
        let length = if random.one_in(3) { 1 } else { 1 + random.below(12) as u32 };
        let update = generate::update(random, nodes);
        block.delays.extend([length, update]);
    }
    block.output = if random.one_in(3) { random.below(nodes) as u32 } else { count as u32 - 1 };
    block
}

/// A value inside the parameter's range.
fn setting(random: &mut Random, parameter: &[u32]) -> u32 {
    let [min, max, default] = [0, 1, 2].map(|at| f32::from_bits(parameter[at]));
    match random.below(6) {
        0 => min.to_bits(),
        1 => max.to_bits(),
        2 => default.to_bits(),
        _ => uniform(random, min, max).to_bits(),
    }
}

/// Samples: most runs stay between -1 and 1, some have subnormals, zeros of both signs, infinities, or any word that is
/// no NaN.
fn signal(random: &mut Random, count: usize) -> Vec<u32> {
    let kind = random.below(12);
    let mut sample = || match kind {
        0 => random.pick(&[0, 0x8000_0000, 1, 0x8000_0001, 0x007f_ffff, 0x807f_ffff, 0x0040_0000, 0x0080_0000]),
        1 if random.one_in(16) => random.pick(&[0x7f80_0000, 0xff80_0000]),
        2 => match random.word() {
            word if f32::from_bits(word).is_nan() => word & 0xbfff_ffff,
            word => word,
        },
        3 => tame(random),
        _ if random.one_in(64) => random.pick(&SPECIALS),
        _ => uniform(random, -1.0, 1.0).to_bits(),
    };
    (0..count).map(|_| sample()).collect()
}

/// Memories that no run has left: any words that are no NaN, and cursors inside their lines.
fn scattered(random: &mut Random, block: &Tables) -> Memories {
    let mut memories = start(block);
    for word in memories.held.iter_mut().chain(&mut memories.area) {
        *word = tame(random);
    }
    for (cursor, delay) in memories.cursors.iter_mut().zip(block.delays.chunks(2)) {
        *cursor = random.below(delay[0] as usize) as u32;
    }
    memories
}

/// A random block with the memories that its first run finds.
fn begun(random: &mut Random) -> Play {
    let block = block(random);
    let memories = if random.one_in(4) { scattered(random, &block) } else { start(&block) };
    let settings = block.parameters.chunks(3).map(|parameter| parameter[2]).collect();
    Play { block, settings, memories, input: vec![], network: vec![], spare: 0, extra: 0 }
}

/// The next run's signals and parameter values.
fn heard(random: &mut Random, play: &mut Play) {
    let samples = if random.one_in(50) { random.below(2) } else { 1 + random.below(160) };
    play.input = signal(random, samples);
    play.network = if play.block.network == 1 { signal(random, samples) } else { vec![] };
    play.spare = if random.one_in(3) { random.below(4) } else { 0 };
    play.extra = random.word();
    for (setting_word, parameter) in play.settings.iter_mut().zip(play.block.parameters.chunks(3)) {
        *setting_word = setting(random, parameter);
    }
}

/// One run of a random block, and the registers that its kernel may use.
pub fn played(random: &mut Random) -> (Play, u16) {
    let mut play = begun(random);
    heard(random, &mut play);
    (play, mask(random))
}

/// What is asked of one random block: a reset, sets, and runs that go on where the run before ended.
pub fn cases(random: &mut Random) -> Vec<(Play, Case)> {
    let mut play = begun(random);
    let mut cases = vec![(play.clone(), Case::Reset)];
    for _ in 0..1 + random.below(3) {
        heard(random, &mut play);
        cases.push((play.clone(), Case::Graph));
        cases.push((play.clone(), Case::Steps(mask(random))));
        cases.push((play.clone(), set(random, &play)));
        match after(&play) {
            Some(memories) => play.memories = memories,
            None => break,
        }
    }
    cases
}

fn mask(random: &mut Random) -> u16 {
    match random.below(4) {
        0 => u16::MAX,
        1 => random.word() as u16,
        _ => (0..1 + random.below(6)).fold(0, |mask, _| mask | 1 << random.below(16)),
    }
}

fn set(random: &mut Random, play: &Play) -> Case {
    let count = play.block.parameters.len() / 3;
    let index = match random.below(8) {
        0 => random.pick(&[count as u32, count as u32 + 1, 0x8000_0000, u32::MAX]),
        _ => random.below(count.max(1)) as u32,
    };
    let value = match play.block.parameters.chunks(3).nth(index as usize) {
        Some(parameter) if !random.one_in(4) => setting(random, parameter),
        Some(parameter) if random.one_in(2) => match random.below(4) {
            0 => f32::from_bits(parameter[0]).next_down().to_bits(),
            1 => f32::from_bits(parameter[1]).next_up().to_bits(),
            _ => random.pick(&[0x7f80_0000, 0xff80_0000, 0x7fc0_0000, 0x7f80_0001, u32::MAX]),
        },
        _ => random.word(),
    };
    Case::Set { index, value }
}

/// The play with a smaller block, fewer samples, or words at 0.
pub fn smaller(play: Play) -> impl Iterator<Item = Play> {
    let blocks = smaller_blocks(play.block.clone());
    let with_blocks = play.clone();
    let fitted = blocks.map(move |block| fitted(&with_blocks, block));
    let lengths = [0, play.input.len() / 2, play.input.len().saturating_sub(1)];
    let shorter_of = play.clone();
    let shorter = lengths.into_iter().filter(move |&count| count < shorter_of.input.len()).map({
        let play = play.clone();
        move |count| {
            let mut smaller = play.clone();
            smaller.input.truncate(count);
            smaller.network.truncate(count);
            smaller
        }
    });
    let plain = (play.spare > 0).then(|| Play { spare: 0, ..play.clone() });
    let later = (play.input.len() > 1).then(|| {
        let mut smaller = play.clone();
        smaller.input.remove(0);
        smaller.network.drain(..play.network.len().min(1));
        smaller
    });
    let count = words(&mut play.clone()).len();
    let zeros = (0..count).filter_map(move |at| {
        let mut smaller = play.clone();
        let word = &mut *words(&mut smaller).swap_remove(at);
        if std::mem::replace(word, 0) == 0 { None } else { Some(smaller) }
    });
    shorter.chain(later).chain(plain).chain(fitted).chain(zeros)
}

fn words(play: &mut Play) -> Vec<&mut u32> {
    let Memories { held, area, cursors } = &mut play.memories;
    [&mut play.settings, held, area, cursors, &mut play.input, &mut play.network].into_iter().flatten().collect()
}

/// The play with another block, its tables cut or filled up to that block's sizes.
fn fitted(play: &Play, block: Tables) -> Play {
    let mut fitted = play.clone();
    fitted.settings.resize(block.parameters.len() / 3, 0);
    fitted.memories.held.resize(block.states.len() / 2, 0);
    fitted.memories.cursors.resize(block.delays.len() / 2, 0);
    let lengths: Vec<u32> = block.delays.chunks_exact(2).map(|delay| delay[0]).collect();
    let total = lengths.iter().map(|&length| length as usize).sum::<usize>().min(1 << 24);
    fitted.memories.area.resize(total, 0);
    for (cursor, length) in fitted.memories.cursors.iter_mut().zip(lengths) {
        *cursor = (*cursor).min(length.saturating_sub(1));
    }
    fitted.block = block;
    fitted
}
