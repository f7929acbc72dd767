//! Random blocks and masks to be compiled: each shape reaches rules of hoisting, schedule and allocation that the others
//! seldom reach.
use qcdsp::tables::Tables;

use crate::generate::{expanded_length, finite, operands, span};
use crate::random::Random;

/// How a block is grown. `..._in` is one in so many, 0 never.
#[derive(Debug, Clone, Copy)]
struct Rules {
    /// The expanded length.
    length: usize,
    /// So many computations from two sources each stand in front, most to be read much later.
    lead: usize,
    /// Codes of the sources, and how often a node is one.
    sources: &'static [u32],
    source_in: usize,
    unary_in: usize,
    macro_in: usize,
    /// Both operands are one node.
    same_in: usize,
    /// An operand is any node, not one of the last few.
    far_in: usize,
    /// An operand is a value that nothing reads yet, as long ago as there is one or of late.
    unread_in: usize,
    is_oldest: bool,
    /// The last nodes read what nothing reads yet.
    is_gathered: bool,
    /// The second operand is a source made for it.
    fed_in: usize,
    /// So many different constants.
    constants: usize,
    parameters: usize,
    states: usize,
    delays: usize,
    /// A memory takes a memory's old value.
    moved_in: usize,
    /// A memory takes nothing.
    idle_in: usize,
}

const ALL: &[u32] = &[0, 1, 2, 3, 4];
const INVARIANT: &[u32] = &[1, 2];
const MOSTLY_INVARIANT: &[u32] = &[0, 1, 1, 2, 2, 2];
const MEMORIES: &[u32] = &[0, 3, 3, 3, 4, 4];
const PLAIN: [u32; 6] = [5, 6, 7, 8, 9, 10];
const MACROS: [u32; 4] = [11, 14, 15, 16];

impl Rules {
    fn any(random: &mut Random) -> Self {
        Self {
            length: 1 + random.below(24),
            lead: 0,
            sources: ALL,
            source_in: 3,
            unary_in: 4,
            macro_in: if random.one_in(8) { 8 } else { 0 },
            same_in: 12,
            far_in: 3,
            unread_in: random.pick(&[0, 2, 4]),
            is_oldest: random.one_in(2),
            is_gathered: !random.one_in(3),
            fed_in: 0,
            constants: 1 + random.below(6),
            parameters: 1 + random.below(4),
            states: random.below(5),
            delays: random.below(4),
            moved_in: 3,
            idle_in: 4,
        }
    }

    /// One register is often enough.
    fn thin(random: &mut Random) -> Self {
        let unary_in = 1 + random.below(3);
        Self { unary_in, same_in: 1, far_in: 0, source_in: 4, moved_in: 6, is_gathered: false, ..Self::any(random) }
    }

    /// Two registers are often enough.
    fn chain(random: &mut Random) -> Self {
        let length = 3 + random.below(30);
        Self {
            length,
            unary_in: 6,
            far_in: 40,
            unread_in: 1,
            is_oldest: false,
            fed_in: 1,
            source_in: 30,
            ..Self::any(random)
        }
    }

    /// More values are held than there are registers.
    fn wide(random: &mut Random) -> Self {
        let most = random.pick(&[16, 16, 48]);
        let lead = 2 + random.below(most);
        let length = lead * 3 + random.below(40);
        Self { length, lead, far_in: 1 + random.below(2), source_in: 8, unary_in: 9, ..Self::any(random) }
    }

    /// More values are held than there are registers at all.
    fn full(random: &mut Random) -> Self {
        let lead = 14 + random.below(30);
        let length = lead * 3 + random.below(60);
        Self { length, lead, is_gathered: true, ..Self::wide(random) }
    }

    /// Most is hoisted.
    fn control(random: &mut Random) -> Self {
        let sources = if random.one_in(3) { INVARIANT } else { MOSTLY_INVARIANT };
        let lead = random.below(12);
        let length = lead * 3 + 4 + random.below(40);
        let (parameters, states) = (1 + random.below(6), random.below(8));
        Self { length, lead, sources, far_in: 1 + random.below(3), parameters, states, ..Self::any(random) }
    }

    /// Memories that take each other's old values, which are read before and after.
    fn memories(random: &mut Random) -> Self {
        let (states, delays) = (1 + random.below(8), random.below(6));
        let length = 2 + random.below(30);
        Self {
            length,
            sources: MEMORIES,
            source_in: 2,
            far_in: 2,
            states,
            delays,
            moved_in: 2,
            idle_in: 8,
            ..Self::any(random)
        }
    }

    /// Few different sources, many nodes of each.
    fn repeated(random: &mut Random) -> Self {
        let (states, delays) = (1 + random.below(2), random.below(2));
        let length = 6 + random.below(40);
        Self { length, source_in: 2, far_in: 2, constants: 1, parameters: 1, states, delays, ..Self::any(random) }
    }

    fn of_any_shape(random: &mut Random) -> Self {
        match random.below(9) {
            0 => Self::thin(random),
            1 => Self::chain(random),
            2 | 3 => Self::wide(random),
            4 | 5 => Self::control(random),
            6 => Self::memories(random),
            7 => Self::repeated(random),
            _ => Self::any(random),
        }
    }
}

/// A small block of any shape.
pub fn small(random: &mut Random) -> Tables {
    let rules = Rules::of_any_shape(random);
    grown(random, rules)
}

/// A small block that one or two registers are often enough for.
pub fn narrow(random: &mut Random) -> Tables {
    let rules = if random.one_in(2) { Rules::thin(random) } else { Rules::chain(random) };
    grown(random, rules)
}

/// A block that sixteen registers are seldom enough for.
pub fn full(random: &mut Random) -> Tables {
    let rules = Rules::full(random);
    grown(random, rules)
}

/// A block of so many expanded nodes, states and delays.
pub fn large(random: &mut Random, length: usize, states: usize, delays: usize) -> Tables {
    let far_in = random.pick(&[1, 2, 10, 100]);
    let macro_in = random.pick(&[0, 0, 20, 200]);
    let lead = random.pick(&[0, 30, 400]);
    let parameters = random.pick(&[3, 40, 256]);
    let constants = random.pick(&[3, 1_000]);
    let shape = if states + delays > 1_000 { Rules::memories(random) } else { Rules::of_any_shape(random) };
    grown(random, Rules { length, lead, far_in, macro_in, parameters, constants, states, delays, ..shape })
}

struct Growing<'r> {
    random: &'r mut Random,
    rules: Rules,
    block: Tables,
    constants: Vec<u32>,
    length: usize,
    /// Computations that nothing reads yet, in their order.
    unread: Vec<u32>,
}

fn grown(random: &mut Random, rules: Rules) -> Tables {
    let version = random.pick(&[2, 2, 3]);
    let network = (version == 3 && random.one_in(4)) as u32;
    let mut block =
        Tables { version, category: random.below(14) as u32, channels: network, network, ..Tables::default() };
    block.parameters = (0..rules.parameters).flat_map(|_| span(random)).collect();
    let constants = (0..rules.constants).map(|_| finite(random)).collect();
    let mut growing = Growing { random, rules, block, constants, length: 0, unread: Vec::new() };
    for _ in 0..rules.lead.min(rules.length / 3) {
        let (first, second) = (growing.source(), growing.source());
        let code = growing.random.pick(&PLAIN);
        growing.push([code, first, second]);
    }
    while growing.length < rules.length {
        growing.grow();
    }
    growing.remember();
    growing.block
}

impl Growing<'_> {
    fn one_in(&mut self, chances: usize) -> bool {
        chances > 0 && self.random.one_in(chances)
    }

    fn push(&mut self, node: [u32; 3]) -> u32 {
        let index = self.count();
        self.block.nodes.extend(node);
        self.length += expanded_length(node[0]);
        let read = &node[1..=operands(node[0])];
        for operand in read {
            if let Ok(at) = self.unread.binary_search(operand) {
                self.unread.remove(at);
            }
        }
        self.unread.extend((!read.is_empty()).then_some(index));
        index
    }

    fn count(&self) -> u32 {
        self.block.nodes.len() as u32 / 3
    }

    fn source(&mut self) -> u32 {
        let Rules { sources, parameters, states, delays, .. } = self.rules;
        let code = if self.block.network == 1 && self.random.one_in(6) { 17 } else { self.random.pick(sources) };
        let mut index = |count: usize| self.random.below(count) as u32;
        let node = match code {
            1 => [1, self.constants[index(self.constants.len()) as usize], 0],
            2 if parameters > 0 => [2, index(parameters), 0],
            3 if states > 0 => [3, index(states), 0],
            4 if delays > 0 => [4, index(delays), 0],
            17 => [17, 0, 0],
            _ => [0, 0, 0],
        };
        self.push(node)
    }

    /// A node more, or a source and a node that reads it.
    fn grow(&mut self) {
        let left = self.rules.length - self.length;
        if self.rules.is_gathered && self.unread.len() > left {
            self.gather();
            return;
        }
        if self.count() == 0 || self.one_in(self.rules.source_in) {
            self.source();
            return;
        }
        let mut code = self.random.pick(&PLAIN);
        if self.one_in(self.rules.unary_in) {
            code = self.random.pick(&[12, 13]);
        }
        if self.one_in(self.rules.macro_in) {
            code = self.random.pick(&MACROS);
        }
        if expanded_length(code) > left {
            code = 7;
        }
        let first = self.operand();
        let second = match operands(code) {
            1 => 0,
            _ if self.one_in(self.rules.same_in) => first,
            _ if left > 1 + expanded_length(code) && self.one_in(self.rules.fed_in) => self.source(),
            _ => self.operand(),
        };
        let is_turned = operands(code) == 2 && self.random.one_in(2);
        self.push(if is_turned { [code, second, first] } else { [code, first, second] });
    }

    /// Reads two values that nothing reads yet.
    fn gather(&mut self) {
        let at = self.random.below(self.unread.len() - 1);
        let (first, second) = (self.unread[at], self.unread[at + 1]);
        let code = self.random.pick(&PLAIN);
        let is_turned = self.random.one_in(2);
        self.push(if is_turned { [code, second, first] } else { [code, first, second] });
    }

    fn operand(&mut self) -> u32 {
        let count = self.count() as usize;
        if !self.unread.is_empty() && self.one_in(self.rules.unread_in) {
            return if self.rules.is_oldest { self.unread[0] } else { self.unread[self.unread.len() - 1] };
        }
        if self.one_in(self.rules.far_in) {
            return self.random.below(count) as u32;
        }
        (count - 1 - self.random.below(count.min(3))) as u32
    }

    /// The memories' updates, and the output.
    fn remember(&mut self) {
        let nodes: Vec<[u32; 3]> = self.block.nodes.chunks(3).map(|node| node.try_into().unwrap()).collect();
        let old: Vec<u32> = (0..).zip(&nodes).filter(|(_, node)| matches!(node[0], 3 | 4)).map(|(at, _)| at).collect();
        let mut swapped: Vec<Option<u32>> = vec![None; self.rules.states];
        if self.rules.states > 1 && self.one_in(self.rules.moved_in) {
            let node_of = |state: u32| nodes.iter().position(|&node| node == [3, state, 0]).map(|at| at as u32);
            let (one, other) = (self.random.below(self.rules.states), self.random.below(self.rules.states));
            (swapped[one], swapped[other]) = (node_of(other as u32), node_of(one as u32));
        }
        let shared = self.random.below(nodes.len()) as u32;
        for memory in 0..self.rules.states + self.rules.delays {
            let update = match swapped.get(memory).copied().flatten() {
                Some(node) => node + 1,
                None if self.one_in(self.rules.idle_in) => 0,
                None if !old.is_empty() && self.one_in(self.rules.moved_in) => self.random.pick(&old) + 1,
                None if self.random.one_in(4) => shared + 1,
                None => self.operand() + 1,
            };
            match memory < self.rules.states {
                true => self.block.states.extend([finite(self.random), update]),
                false => self.block.delays.extend([1 + self.random.below(100) as u32, update]),
            }
        }
        let count = nodes.len() as u32;
        self.block.output = if self.random.one_in(4) { self.random.below(nodes.len()) as u32 } else { count - 1 };
    }
}

const REGISTERS: usize = 16;

/// Every mask of one register and of two.
pub fn single_masks() -> Vec<u32> {
    (0..REGISTERS).map(|register| 1 << register).collect()
}

pub fn double_masks() -> Vec<u32> {
    let pairs = (0..REGISTERS).flat_map(|high| (0..high).map(move |low| (high, low)));
    pairs.map(|(high, low)| 1 << high | 1 << low).collect()
}

/// A mask of more registers most of the time; its high bits are not read.
pub fn mask(random: &mut Random) -> u32 {
    let low = match random.below(30) {
        0 => 0,
        1..10 => 0xffff,
        10..16 => random.word() & 0xffff,
        _ => {
            let count = 3 + random.below(6);
            (0..count).fold(0, |mask, _| mask | 1 << random.below(REGISTERS))
        }
    };
    low | high_bits(random)
}

/// Bits above the sixteen, in half of the masks.
pub fn high_bits(random: &mut Random) -> u32 {
    if random.one_in(2) { random.word() << 16 } else { 0 }
}
