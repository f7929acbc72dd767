//! Lowering written once more in the Rust's terms (document 01, modules 3 and 4), for two uses: one of its rules can be
//! slipped on purpose, and it tells what came up on the way. Without a slip it is held to `compile_with` on every block.
use std::collections::HashMap;

use qcdsp::kernels::KernelTables;
use qcdsp::tables::Tables;

use crate::allocation::{Allocator, List};
use crate::checker::operands;

/// A rule that is done wrong, in the words of what is done instead.
#[derive(Debug, Clone, Copy, PartialEq, Eq)]
pub enum Slip {
    ReaderSeesNewValue,
    EvictedByDistanceAlone,
    ConstantsMerged,
    EvictedWithoutDistance,
    TieToLowestRegister,
    HighestFreeRegister,
    FirstFreedSlotFirst,
    SlotsNeverAgain,
    HoistedSlotFreed,
    SecondOperandsSlotFreedFirst,
    SecondOperandLends,
    NoOperandLends,
    OperandsLockedAtOnce,
    OwnReadPassed,
    LockedRegisterTaken,
    StoredBeforeOldIsKept,
    OldKeptBeforeValue,
    LoadsNotShared,
    HoistedSpilledAgain,
    DeadNodesComputed,
    HoistedThroughHoisted,
    ConstantsNotHoisted,
    SlotsLastNodeFirst,
    DelaysBeforeStates,
    OldReadsOfFirstNode,
    WrittenAfterItsValue,
    WritesAtTheEnd,
    OutputAfterItsValue,
}

/// What a block can make its lowering do.
#[derive(Debug, Clone, Copy, PartialEq, Eq)]
pub enum Event {
    DeadComputation,
    HoistedReadTwice,
    HoistedComputedOn,
    HoistedDroppedAndLoaded,
    RepeatedSource,
    EqualConstants,
    Swap,
    WriteFirstOfAll,
    StateThenDelay,
    OutputWaits,
    OldValueLoaded,
    OldValueHeld,
    AllRegistersHeld,
    SixteenHeld,
    DroppedWithoutSpill,
    NearerDropped,
    Tie,
    SecondOperandDropped,
    Spilled,
    Reloaded,
    ControlSpilled,
    ControlReloaded,
    SlotAgain,
    SlotAgainOfSeveral,
    TwoSlotsFreed,
    SourceLoadedAgain,
    ConstantMadeAgain,
    FirstLends,
    SecondLends,
    BothDie,
    NoneDies,
    LockedInControl,
    LockedInSample,
    LockedByOldValue,
}

/// The events by name, in their order.
pub const EVENTS: [&str; 34] = [
    "dead computations",
    "hoisted values read twice or more",
    "hoisted values kept and computed on",
    "hoisted values dropped without a spill and loaded from their slot in control",
    "repeated sources that share a load",
    "equal constants, not merged",
    "swaps of two states",
    "writes first of all",
    "a delay's write right behind a state's",
    "outputs that wait for later computations",
    "old values loaded before a write",
    "old values held in a register at a write",
    "all usable registers held",
    "all sixteen registers held",
    "values dropped without a spill",
    "values dropped although another is read later",
    "ties among registers to be taken",
    "second operands dropped while the first is fetched",
    "spills",
    "reloads",
    "control spills",
    "control spills loaded again",
    "freed slots used again",
    "freed slots used again while several are free",
    "slots of two dying operands freed",
    "sources loaded again",
    "constants made again",
    "first operands that lend their register",
    "second operands that lend their register",
    "first operands that lend it where both die",
    "results that take a register",
    "14 in control",
    "14 in the sample",
    "14 while an old value is kept",
];

/// A load's code and its index, or an immediate's bits.
pub type Source = (u32, u32);
pub const AUDIO: u32 = 1;
const PARAMETER: u32 = 3;
const STATE: u32 = 4;
const DELAY: u32 = 5;
pub const CONTROL: u32 = 6;
pub const IMMEDIATE: u32 = 7;

#[derive(Debug, Clone, Copy)]
pub enum Op {
    Compute(usize),
    /// A hoisted value's store to its control slot.
    Keep {
        slot: u32,
        value: usize,
    },
    /// A store that overwrites what loads of `home` read; the audio's is the output.
    Write {
        home: Source,
        value: usize,
    },
}

#[derive(Debug, Clone, PartialEq, Eq)]
pub struct Lowered {
    pub kernel: KernelTables,
    pub registers: u32,
}

/// How often each event came up.
pub type Seen = [u64; EVENTS.len()];

/// The kernel of an expanded block, nothing for 14.
pub fn lower(block: &Tables, mask: u16, slip: Option<Slip>) -> (Option<Lowered>, Seen) {
    let mut lowering = Lowering { block, mask, slip, seen: [0; EVENTS.len()] };
    let lowered = lowering.kernel();
    (lowered, lowering.seen)
}

pub struct Lowering<'a> {
    pub block: &'a Tables,
    pub mask: u16,
    pub slip: Option<Slip>,
    seen: Seen,
}

fn is_computed(node: &[u32]) -> bool {
    operands(node[0]) > 0
}

/// The nodes that a node reads.
pub fn read_by(node: &[u32]) -> impl DoubleEndedIterator<Item = usize> {
    node[1..=operands(node[0])].iter().map(|&word| word as usize)
}

impl<'a> Lowering<'a> {
    pub fn slips(&self, slip: Slip) -> bool {
        self.slip == Some(slip)
    }

    fn node(&self, index: usize) -> &'a [u32] {
        &self.block.nodes[3 * index..3 * index + 3]
    }

    pub fn count(&self) -> usize {
        self.block.nodes.len() / 3
    }

    fn kernel(&mut self) -> Option<Lowered> {
        let hoistable = self.hoistable();
        let needed = self.needed(&hoistable);
        let mut hoisted: Vec<usize> = (0..self.count()).filter(|&node| needed[node] && hoistable[node]).collect();
        if self.slips(Slip::SlotsLastNodeFirst) {
            hoisted.reverse();
        }
        let mut slots = vec![None; self.count()];
        hoisted.iter().zip(0..).for_each(|(&node, slot)| slots[node] = Some(slot));
        let mut list = List::default();
        let ops = self.control_ops(&hoisted, &slots);
        let control = self.sources(None);
        let [control_slots, control_most] = self.phase(control, &ops, Some(hoisted.len() as u32), &mut list)?;
        let control_steps = list.steps.len() as u32 / 2;
        let sources = self.sources(Some(&slots));
        let ops = self.sample_ops(&needed, &sources);
        let [spill_slots, sample_most] = self.phase(sources, &ops, None, &mut list)?;
        let List { steps, instructions } = list;
        let sample_steps = steps.len() as u32 / 2 - control_steps;
        let counts = [control_steps, sample_steps, instructions.len() as u32 / 2, control_slots, spill_slots];
        Some(Lowered { kernel: KernelTables { counts, steps, instructions }, registers: control_most.max(sample_most) })
    }

    /// Computations from constants and parameters alone.
    fn hoistable(&self) -> Vec<bool> {
        let mut invariant: Vec<bool> = Vec::new();
        let mut has_parameter: Vec<bool> = Vec::new();
        for node in self.block.nodes.chunks(3) {
            let of_all = read_by(node).all(|operand| invariant[operand]);
            invariant.push(if is_computed(node) { of_all } else { matches!(node[0], 1 | 2) });
            let of_any = read_by(node).any(|operand| has_parameter[operand]);
            has_parameter.push(of_any || node[0] == 2 || !self.slips(Slip::ConstantsNotHoisted));
        }
        let hoistable = |node: usize| is_computed(self.node(node)) && invariant[node] && has_parameter[node];
        (0..self.count()).map(hoistable).collect()
    }

    /// What the sample phase reaches, without passing through a hoisted computation.
    fn needed(&mut self, hoistable: &[bool]) -> Vec<bool> {
        let memories = self.block.states.chunks(2).chain(self.block.delays.chunks(2));
        let updates = memories.filter(|memory| memory[1] != 0).map(|memory| memory[1] as usize - 1);
        let roots: Vec<usize> = updates.chain([self.block.output as usize]).collect();
        let is_slipped = self.slips(Slip::HoistedThroughHoisted);
        let needed = self.reached(&roots, |node| is_slipped || !hoistable[node]);
        let in_control: Vec<usize> = (0..self.count()).filter(|&node| needed[node] && hoistable[node]).collect();
        let reached = self.reached(&in_control, |_| true);
        let is_dead = |&node: &usize| is_computed(self.node(node)) && !needed[node] && !reached[node];
        self.seen[Event::DeadComputation as usize] += (0..self.count()).filter(is_dead).count() as u64;
        if self.slips(Slip::DeadNodesComputed) { vec![true; needed.len()] } else { needed }
    }

    fn reached(&self, roots: &[usize], descends: impl Fn(usize) -> bool) -> Vec<bool> {
        let mut reached = vec![false; self.count()];
        roots.iter().for_each(|&root| reached[root] = true);
        for node in (0..self.count()).rev() {
            if reached[node] && descends(node) {
                read_by(self.node(node)).for_each(|operand| reached[operand] = true);
            }
        }
        reached
    }

    fn control_ops(&self, hoisted: &[usize], slots: &[Option<u32>]) -> Vec<Op> {
        let reached = self.reached(hoisted, |_| true);
        let mut ops = Vec::new();
        for node in (0..self.count()).filter(|&node| reached[node] && is_computed(self.node(node))) {
            ops.push(Op::Compute(node));
            if let Some(slot) = slots[node] {
                ops.push(Op::Keep { slot, value: node });
            }
        }
        ops
    }

    /// Where a phase's values come from that it does not compute: the control phase has no slots to load.
    fn sources(&self, slots: Option<&[Option<u32>]>) -> Vec<Option<Source>> {
        let source = |(index, node): (usize, &[u32])| match (node[0], slots) {
            (1, _) => Some((IMMEDIATE, node[1])),
            (2, _) => Some((PARAMETER, node[1])),
            (_, None) => None,
            (0, _) => Some((AUDIO, 0)),
            (3 | 4, _) => Some((node[0] + 1, node[1])),
            (17, _) => Some((2, 0)),
            (_, Some(slots)) => slots[index].map(|slot| (CONTROL, slot)),
        };
        self.block.nodes.chunks(3).enumerate().map(source).collect()
    }

    /// Computations in node order, each write behind the later of its new value's computation and the last one that reads
    /// its old value, the output last.
    fn sample_ops(&mut self, needed: &[bool], sources: &[Option<Source>]) -> Vec<Op> {
        let is_computation = |&node: &usize| needed[node] && sources[node].is_none();
        let computed: Vec<usize> = (0..self.count()).filter(is_computation).collect();
        let mut place = vec![None; self.count()];
        computed.iter().enumerate().for_each(|(at, &node)| place[node] = Some(at));
        let last_read = self.last_reads(&computed, sources);
        let mut behind: Vec<Vec<Op>> = vec![Vec::new(); computed.len() + 1];
        for (home, value) in self.writes() {
            let old_read = last_read.get(&home).copied().filter(|_| !self.slips(Slip::WrittenAfterItsValue));
            let mut after = place[value].max(old_read).map_or(0, |at| at + 1);
            if self.slips(Slip::WritesAtTheEnd) {
                after = computed.len();
            }
            behind[after].push(Op::Write { home, value });
        }
        self.see_writes(&behind);
        let output = self.block.output as usize;
        let written = Op::Write { home: (AUDIO, 0), value: output };
        let is_waiting = place[output].is_some_and(|at| at + 1 < computed.len());
        self.seen[Event::OutputWaits as usize] += u64::from(is_waiting);
        match place[output].filter(|_| self.slips(Slip::OutputAfterItsValue)) {
            Some(at) => behind[at + 1].push(written),
            None => behind[computed.len()].push(written),
        }
        let (first, rest) = behind.split_first().expect("there is a place before all computations");
        let mut ops = first.clone();
        for (&node, writes) in computed.iter().zip(rest) {
            ops.push(Op::Compute(node));
            ops.extend(writes);
        }
        ops
    }

    /// The last computation that reads each source, by any of its nodes.
    fn last_reads(&self, computed: &[usize], sources: &[Option<Source>]) -> HashMap<Source, usize> {
        let is_first = |operand: usize| sources.iter().position(|of| *of == sources[operand]) == Some(operand);
        let mut last_read = HashMap::new();
        for (at, &node) in computed.iter().enumerate() {
            for operand in read_by(self.node(node)) {
                let is_counted = !self.slips(Slip::OldReadsOfFirstNode) || is_first(operand);
                if let Some(source) = sources[operand].filter(|_| is_counted) {
                    last_read.insert(source, at);
                }
            }
        }
        last_read
    }

    /// The memories with an update, states before delays.
    fn writes(&self) -> Vec<(Source, usize)> {
        let of = |code: u32, table: &[u32]| -> Vec<(Source, usize)> {
            let memories = table.chunks(2).zip(0..).filter(|(memory, _)| memory[1] != 0);
            memories.map(|(memory, index)| ((code, index), memory[1] as usize - 1)).collect()
        };
        let (states, delays) = (of(STATE, &self.block.states), of(DELAY, &self.block.delays));
        if self.slips(Slip::DelaysBeforeStates) { [delays, states].concat() } else { [states, delays].concat() }
    }

    fn see_writes(&mut self, behind: &[Vec<Op>]) {
        self.seen[Event::WriteFirstOfAll as usize] += behind[0].len() as u64;
        for pair in behind.iter().flat_map(|writes| writes.windows(2)) {
            let is_then = matches!(pair, [Op::Write { home: (STATE, _), .. }, Op::Write { home: (DELAY, _), .. }]);
            self.seen[Event::StateThenDelay as usize] += u64::from(is_then);
        }
        let taken = |state: usize| {
            let update = self.block.states[2 * state + 1].checked_sub(1)?;
            Some(self.node(update as usize)).filter(|node| node[0] == 3).map(|node| node[1] as usize)
        };
        let swapped = |&state: &usize| taken(state).is_some_and(|other| other > state && taken(other) == Some(state));
        self.seen[Event::Swap as usize] += (0..self.block.states.len() / 2).filter(swapped).count() as u64;
    }

    /// Gives the slots in use and the most registers held.
    fn phase(
        &mut self,
        sources: Vec<Option<Source>>,
        ops: &[Op],
        fixed: Option<u32>,
        list: &mut List,
    ) -> Option<[u32; 2]> {
        let mut allocator = Allocator::new(self, sources, ops, fixed, list);
        let done = ops.iter().enumerate().try_for_each(|(position, &op)| allocator.operation(position, op));
        let left = [allocator.slots, allocator.most];
        let most = allocator.most;
        let seen = allocator.seen;
        self.seen.iter_mut().zip(seen).for_each(|(all, more)| *all += more);
        self.seen[Event::AllRegistersHeld as usize] += u64::from(most == self.mask.count_ones() && done.is_some());
        self.seen[Event::SixteenHeld as usize] += u64::from(most == 16);
        done.map(|()| left)
    }
}
