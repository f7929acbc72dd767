//! Random blocks as word tables: valid ones, and faults that a block is given on top.
use qcdsp::tables::Tables;

use crate::random::Random;

/// Codes that every version has, and those that need version 2 (answer 5).
const SOURCES: [u32; 5] = [0, 1, 2, 3, 4];
const OLD_OPERATIONS: [u32; 7] = [5, 6, 7, 8, 9, 12, 13];
const NEW_OPERATIONS: [u32; 5] = [10, 11, 14, 15, 16];
const OLD_CATEGORIES: [u32; 7] = [0, 4, 6, 7, 10, 11, 12];
const NEW_CATEGORIES: [u32; 7] = [1, 2, 3, 5, 8, 9, 13];
const NETWORK: u32 = 17;

pub const MOST_NODES: usize = 65_536;
const MOST_PARAMETERS: usize = 256;
const MOST_MEMORIES: usize = 4_096;
const MOST_DELAY: u32 = 16_777_216;

const NOT_FINITE: [u32; 6] = [0x7f80_0000, 0xff80_0000, 0x7fc0_0000, 0x7f80_0001, 0xffff_ffff, 0x7fa0_1234];

/// How many expanded nodes a node of this code makes.
pub fn expanded_length(code: u32) -> usize {
    match code {
        14 => 12,
        11 => 13,
        15 => 36,
        16 => 40,
        _ => 1,
    }
}

/// Which words of a node are operands.
pub fn operands(code: u32) -> usize {
    match code {
        5..=11 => 2,
        12..=16 => 1,
        _ => 0,
    }
}

/// A valid block: most are small, some fill their tables.
pub fn valid(random: &mut Random) -> Tables {
    let version = random.below(3) as u32 + 1;
    let network = (version == 3 && random.one_in(3)) as u32;
    let (channels, category) = match version {
        1 => (0, random.pick(&OLD_CATEGORIES)),
        _ => (network | random.below(2) as u32, random.below(14) as u32),
    };
    let mut block = Tables { version, category, channels, network, ..Tables::default() };
    let count = table_size(random, 6, MOST_PARAMETERS);
    for _ in 0..count {
        block.parameters.extend(span(random));
    }
    let states = table_size(random, 6, MOST_MEMORIES);
    let delays = table_size(random, 6, MOST_MEMORIES);
    let nodes = node_count(random);
    for index in 0..nodes {
        let node = node(random, &block, index, count, states, delays);
        block.nodes.extend(node);
    }
    trim(&mut block);
    let nodes = block.nodes.len() / 3;
    for _ in 0..states {
        let record = [finite(random), update(random, nodes)];
        block.states.extend(record);
    }
    let mut left = MOST_DELAY;
    for index in 0..delays {
        let most = left - (delays - index - 1) as u32;
        let length = match random.below(8) {
            0 => 1,
            1 => most,
            2 => random.below(most as usize) as u32 + 1,
            _ => random.below(most.min(100) as usize) as u32 + 1,
        };
        left -= length;
        let record = [length, update(random, nodes)];
        block.delays.extend(record);
    }
    block.output = random.below(nodes) as u32;
    block
}

/// The largest blocks: `tanh` nodes of code 15 and `plain` ones of length 1 (document 01, "Small kernels").
pub fn tanh_block(tanh: usize, plain: usize) -> Tables {
    let mut nodes: Vec<u32> = [0; 3].repeat(plain);
    for index in 0..tanh {
        nodes.extend([15, (plain + index - 1) as u32, 0]);
    }
    Tables { version: 2, category: 10, output: (plain + tanh - 1) as u32, nodes, ..Tables::default() }
}

/// A valid block of `count` nodes that are no macros.
pub fn plain_block(random: &mut Random, count: usize) -> Tables {
    let mut block = Tables { version: 1, category: 10, output: count as u32 - 1, ..Tables::default() };
    block.parameters = [0, 0x3f80_0000, 0].repeat(4);
    block.states = [0, 1].repeat(4);
    block.delays = [100, 1].repeat(4);
    for index in 0..count {
        let node = node(random, &block, index, 4, 4, 4);
        block.nodes.extend(node);
    }
    block
}

fn table_size(random: &mut Random, usual: usize, most: usize) -> usize {
    match random.below(2000) {
        0 => most,
        1 => random.below(most + 1),
        _ => random.below(usual),
    }
}

fn node_count(random: &mut Random) -> usize {
    match random.below(10_000) {
        0 => 1 + random.below(MOST_NODES),
        1..10 => 1 + random.below(3_000),
        10..500 => 1 + random.below(200),
        _ => 1 + random.below(16),
    }
}

pub fn node(
    random: &mut Random,
    block: &Tables,
    index: usize,
    parameters: usize,
    states: usize,
    delays: usize,
) -> [u32; 3] {
    let is_source = index == 0 || random.one_in(3);
    let code = match (is_source, block.version) {
        (true, _) if block.network == 1 && random.one_in(5) => NETWORK,
        (true, _) => random.pick(&SOURCES),
        (false, 2..) if random.one_in(2) => random.pick(&NEW_OPERATIONS),
        (false, _) => random.pick(&OLD_OPERATIONS),
    };
    // operands are often recent nodes, so that long chains come up
    let operand = |random: &mut Random| match random.below(3) {
        0 => random.below(index) as u32,
        _ => (index - 1 - random.below(index.min(4))) as u32,
    };
    match (code, operands(code)) {
        (_, 2) => [code, operand(random), operand(random)],
        (_, 1) => [code, operand(random), 0],
        (1, _) => [1, finite(random), 0],
        (2, _) if parameters > 0 => [2, random.below(parameters) as u32, 0],
        (3, _) if states > 0 => [3, random.below(states) as u32, 0],
        (4, _) if delays > 0 => [4, random.below(delays) as u32, 0],
        (NETWORK, _) => [NETWORK, 0, 0],
        _ => [0, 0, 0],
    }
}

/// Cuts off the nodes that the limit on the expanded length does not allow.
fn trim(block: &mut Tables) {
    let mut total = 0;
    let fits = block.nodes.chunks(3).take_while(|node| {
        total += expanded_length(node[0]);
        total <= MOST_NODES
    });
    let count = fits.count();
    block.nodes.truncate(count * 3);
}

/// A word that is finite.
pub fn finite(random: &mut Random) -> u32 {
    let word = match random.below(4) {
        0 => random.pick(&[0, 0x8000_0000, 0x3f80_0000, 0x0000_0001, 0x7f7f_ffff, 0xff7f_ffff, 0x7ef3_11c7]),
        _ => random.word(),
    };
    if f32::from_bits(word).is_finite() { word } else { word ^ 0x4000_0000 }
}

/// 0 means none, n+1 node n.
pub fn update(random: &mut Random, nodes: usize) -> u32 {
    if random.one_in(4) { 0 } else { random.below(nodes) as u32 + 1 }
}

/// Words of a valid parameter.
pub fn span(random: &mut Random) -> [u32; 3] {
    loop {
        let (a, b) = (f32::from_bits(finite(random)), f32::from_bits(finite(random)));
        let (min, max) = if a < b { (a, b) } else { (b, a) };
        let default = match random.below(4) {
            0 => min,
            1 => max,
            _ => (min / 2.0 + max / 2.0).clamp(min, max),
        };
        if min < max && (max - min).is_finite() {
            return [min.to_bits(), max.to_bits(), default.to_bits()];
        }
    }
}

/// Gives the block a fault that document 01 answers by `number`, 1 to 12; with other faults a lower one may win.
pub fn fault(random: &mut Random, block: &mut Tables, number: u32) {
    match number {
        1 => bad_form(random, block),
        2 => block.version = random.pick(&[0, 4, 5, 255, 0x8000_0001, 0xffff_ffff]),
        3 => {
            block.network = 1;
            match random.below(3) {
                0 => block.version = random.below(2) as u32 + 1,
                1 => block.channels = 0,
                _ => (block.version, block.channels) = (random.below(2) as u32 + 1, 0),
            }
        }
        4 => {
            block.network = 0;
            place_node(random, block, [NETWORK, 0, 0]);
        }
        5 => too_old(random, block),
        6 => too_large(random, block),
        7 => {
            let at = place(random, &mut block.parameters, [0, 0x3f80_0000, 0]);
            let [min, max, default] = bad_span(random);
            block.parameters[at..at + 3].copy_from_slice(&[min, max, default]);
        }
        8 => block.output = past(random, block.nodes.len() / 3),
        9 => {
            let is_new = block.version != 1 && random.one_in(2);
            let code = random.pick(if is_new { &NEW_OPERATIONS[..] } else { &OLD_OPERATIONS[..] });
            let at = place_node(random, block, [0, 0, 0]);
            let node = at / 3;
            let good = if node == 0 { 0 } else { random.below(node) as u32 };
            let bad = past(random, node);
            block.nodes[at] = code;
            let both = [[bad, good], [good, bad], [bad, bad]];
            let words = if operands(code) == 2 { random.pick(&both) } else { [bad, 0] };
            block.nodes[at + 1..at + 3].copy_from_slice(&words);
        }
        10 => {
            let node = match random.below(4) {
                0 => [1, random.pick(&NOT_FINITE), 0],
                1 => [2, past(random, block.parameters.len() / 3), 0],
                2 => [3, past(random, block.states.len() / 2), 0],
                _ => [4, past(random, block.delays.len() / 2), 0],
            };
            place_node(random, block, node);
        }
        11 => {
            let at = place(random, &mut block.states, [0, 0]);
            match random.below(2) {
                0 => block.states[at] = random.pick(&NOT_FINITE),
                _ => block.states[at + 1] = past(random, block.nodes.len() / 3 + 1),
            }
        }
        12 => {
            let at = place(random, &mut block.delays, [1, 0]);
            match random.below(3) {
                0 => block.delays[at] = 0,
                1 => block.delays[at + 1] = past(random, block.nodes.len() / 3 + 1),
                _ => {
                    let before = block.delays[..at].chunks(2).fold(0, |sum: u32, delay| sum.saturating_add(delay[0]));
                    let over = random.pick(&[1, 2, 1000, 0x7fff_ffff, 0xf000_0000]);
                    block.delays[at] = MOST_DELAY.saturating_sub(before).saturating_add(over);
                }
            }
        }
        _ => unreachable!("no fault of a block has the answer {number}"),
    }
}

/// A number that is not below `bound`.
fn past(random: &mut Random, bound: usize) -> u32 {
    let bound = bound as u32;
    match random.below(4) {
        0 | 1 => bound,
        2 => bound + 1 + random.below(100) as u32,
        _ => random.pick(&[0x7fff_ffff, 0x8000_0000, 0xffff_fffe, 0xffff_ffff]),
    }
}

/// The place of a random record, which is appended where the table has none.
fn place<const N: usize>(random: &mut Random, table: &mut Vec<u32>, record: [u32; N]) -> usize {
    if table.len() < N {
        table.extend(record);
    }
    random.below(table.len() / N) * N
}

/// Puts the node into a random place, most often one that already is a source, so that little else changes.
fn place_node(random: &mut Random, block: &mut Tables, node: [u32; 3]) -> usize {
    let at = place(random, &mut block.nodes, [0, 0, 0]);
    block.nodes[at..at + 3].copy_from_slice(&node);
    at
}

fn too_old(random: &mut Random, block: &mut Tables) {
    block.version = 1;
    block.network = 0;
    for node in block.nodes.chunks_mut(3).filter(|node| node[0] == NETWORK) {
        node[0] = 0;
    }
    match random.below(3) {
        0 => block.channels = 1,
        1 => block.category = random.pick(&NEW_CATEGORIES),
        _ => {
            let code = random.pick(&NEW_OPERATIONS);
            place_node(random, block, [code, 0, 0]);
        }
    }
}

fn too_large(random: &mut Random, block: &mut Tables) {
    match random.below(if block.version == 1 { 20 } else { 24 }) {
        0 => block.states.resize((MOST_MEMORIES + 1 + random.below(3)) * 2, 0),
        1 => block.delays = [1, 0].repeat(MOST_MEMORIES + 1 + random.below(3)),
        2 if random.one_in(20) => block.nodes.resize((MOST_NODES + 1) * 3, 0),
        2..20 => {
            let more = random.below(3) + MOST_PARAMETERS + 1;
            while block.parameters.len() < more * 3 {
                let span = span(random);
                block.parameters.extend(span);
            }
        }
        _ => {
            let (code, most) = random.pick(&[(11, 5042), (14, 5462), (15, 1821), (16, 1639)]);
            let operand = (block.nodes.len() / 3).saturating_sub(1) as u32;
            let node = if operands(code) == 2 { [code, operand, operand] } else { [code, operand, 0] };
            for _ in 0..most + random.below(2) {
                block.nodes.extend(node);
            }
        }
    }
}

fn bad_span(random: &mut Random) -> [u32; 3] {
    let [min, max, default] = span(random);
    match random.below(8) {
        0 => [random.pick(&NOT_FINITE), max, default],
        1 => [min, random.pick(&NOT_FINITE), default],
        2 => [min, max, random.pick(&NOT_FINITE)],
        3 => [max, min, default],
        4 => [min, min, min],
        5 => [0x8000_0000, 0, 0],
        6 => [0xff00_0000 + random.below(0x80_0000) as u32, 0x7f00_0000 + random.below(0x80_0000) as u32, 0],
        _ if random.one_in(2) => [min, max, next_up(max)],
        _ => [min, max, next_down(min)],
    }
}

fn next_up(word: u32) -> u32 {
    f32::from_bits(word).next_up().to_bits()
}

fn next_down(word: u32) -> u32 {
    f32::from_bits(word).next_down().to_bits()
}

/// Words that the Rust's types cannot hold.
fn bad_form(random: &mut Random, block: &mut Tables) {
    match random.below(9) {
        0 => block.category = past(random, 14),
        1 => block.channels = past(random, 2),
        2 => block.network = past(random, 2),
        3 => block.parameters.extend([0, 0x3f80_0000].iter().take(1 + random.below(2))),
        4 => block.states.push(0),
        5 => block.delays.push(1),
        6 => block.nodes.extend([0, 0].iter().take(1 + random.below(2))),
        7 => {
            let code = past(random, 18);
            place_node(random, block, [code, 0, 0]);
        }
        _ => {
            let (code, words) = random.pick(&[
                (0, [1, 0]),
                (0, [0, 1]),
                (1, [0, 1]),
                (2, [0, 1]),
                (3, [0, 7]),
                (4, [0, 1]),
                (12, [0, 1]),
                (13, [0, 2]),
                (14, [0, 1]),
                (15, [0, 0xffff_ffff]),
                (16, [0, 1]),
                (17, [0, 1]),
                (17, [1, 0]),
            ]);
            place_node(random, block, [code, words[0], words[1]]);
        }
    }
}
