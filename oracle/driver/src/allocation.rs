//! Allocation as the Rust does it (document 01, module 4), for `lowering`.
use std::collections::HashMap;

use qcdsp::tables::Tables;

use crate::lowering::{AUDIO, CONTROL, EVENTS, Event, IMMEDIATE, Lowering, Op, Seen, Slip, Source, read_by};

#[derive(Default)]
pub struct List {
    pub steps: Vec<u32>,
    pub instructions: Vec<u32>,
}

impl List {
    fn step(&mut self, code: u32, register: usize, index: u32) {
        self.steps.extend([code * 16 + register as u32, index]);
    }

    fn compute(&mut self, instruction: [u32; 2]) {
        self.step(7, 0, self.instructions.len() as u32 / 2);
        self.instructions.extend(instruction);
    }
}

/// The register allocator of one phase.
pub struct Allocator<'a> {
    block: &'a Tables,
    mask: u16,
    slip: Option<Slip>,
    /// The hoisted values' slots, in the control phase.
    fixed: Option<u32>,
    sources: Vec<Option<Source>>,
    /// The nodes of each source, and the node that stands for each.
    nodes_of: HashMap<Source, Vec<usize>>,
    shared: Vec<usize>,
    /// The positions that read each node, and how many of them are past.
    reads: Vec<Vec<usize>>,
    past: Vec<usize>,
    holder: Vec<Option<usize>>,
    owner: [Option<usize>; 16],
    fresh: Vec<bool>,
    is_loaded: Vec<bool>,
    slot: Vec<Option<u32>>,
    freed: Vec<u32>,
    pub slots: u32,
    pub most: u32,
    list: &'a mut List,
    pub seen: Seen,
}

impl<'a> Allocator<'a> {
    pub fn new(
        of: &Lowering<'a>,
        sources: Vec<Option<Source>>,
        ops: &[Op],
        fixed: Option<u32>,
        list: &'a mut List,
    ) -> Self {
        let count = of.count();
        let mut nodes_of: HashMap<Source, Vec<usize>> = HashMap::new();
        for (node, source) in sources.iter().enumerate() {
            if let Some(source) = source {
                nodes_of.entry(*source).or_default().push(node);
            }
        }
        let is_shared = |code: u32| match code {
            IMMEDIATE => of.slips(Slip::ConstantsMerged),
            _ => !of.slips(Slip::LoadsNotShared),
        };
        let shared = |node: usize| match sources[node] {
            Some(source) if is_shared(source.0) => nodes_of[&source][0],
            _ => node,
        };
        let mut allocator = Self {
            block: of.block,
            mask: of.mask,
            slip: of.slip,
            fixed,
            shared: (0..count).map(shared).collect(),
            reads: vec![Vec::new(); count],
            past: vec![0; count],
            holder: vec![None; count],
            owner: [None; 16],
            fresh: sources.iter().map(Option::is_some).collect(),
            is_loaded: vec![false; count],
            slot: vec![None; count],
            freed: Vec::new(),
            slots: fixed.unwrap_or(0),
            most: 0,
            sources,
            nodes_of,
            list,
            seen: [0; EVENTS.len()],
        };
        for (position, &op) in ops.iter().enumerate() {
            for node in allocator.read(op) {
                allocator.reads[node].push(position);
            }
        }
        allocator.see_sources(ops);
        allocator
    }

    fn slips(&self, slip: Slip) -> bool {
        self.slip == Some(slip)
    }

    fn saw(&mut self, event: Event, is_seen: bool) {
        self.seen[event as usize] += u64::from(is_seen);
    }

    fn read(&self, op: Op) -> Vec<usize> {
        match op {
            Op::Compute(node) => {
                read_by(&self.block.nodes[3 * node..3 * node + 3]).map(|node| self.shared[node]).collect()
            }
            Op::Keep { value, .. } | Op::Write { value, .. } => vec![self.shared[value]],
        }
    }

    fn see_sources(&mut self, ops: &[Op]) {
        let mut is_read = vec![false; self.shared.len()];
        for &op in ops {
            match op {
                Op::Compute(node) => {
                    read_by(&self.block.nodes[3 * node..3 * node + 3]).for_each(|node| is_read[node] = true)
                }
                Op::Keep { value, .. } | Op::Write { value, .. } => is_read[value] = true,
            }
        }
        for (source, nodes) in &self.nodes_of {
            let several = nodes.iter().filter(|&&node| is_read[node]).count() > 1;
            let is_immediate = source.0 == IMMEDIATE;
            self.seen[Event::EqualConstants as usize] += u64::from(several && is_immediate);
            self.seen[Event::RepeatedSource as usize] += u64::from(several && !is_immediate);
            let is_hoisted = source.0 == CONTROL && self.reads[nodes[0]].len() > 1;
            self.seen[Event::HoistedReadTwice as usize] += u64::from(is_hoisted);
        }
    }

    fn next_read(&self, node: usize) -> Option<usize> {
        self.reads[node].get(self.past[node]).copied()
    }

    fn pass(&mut self, reads: &[usize], position: usize) {
        for &node in reads {
            while self.next_read(node).is_some_and(|read| read <= position) {
                self.past[node] += 1;
            }
        }
    }

    /// One operation; nothing for 14.
    pub fn operation(&mut self, position: usize, op: Op) -> Option<()> {
        let reads = self.read(op);
        let mut locked = 0u16;
        if self.slips(Slip::OwnReadPassed) {
            self.pass(&reads, position);
        }
        if let Op::Write { home, .. } = op
            && self.slips(Slip::OldKeptBeforeValue)
        {
            self.keep_old(home, &mut locked)?;
        }
        let registers = self.fetch_all(&reads, &mut locked)?;
        self.pass(&reads, position);
        match op {
            Op::Compute(node) => self.compute(node, &reads, &registers, locked)?,
            Op::Keep { slot, value } => {
                self.list.step(13, registers[0], slot);
                self.saw(Event::HoistedComputedOn, self.next_read(value).is_some());
                if !self.slips(Slip::HoistedSpilledAgain) {
                    self.slot[value] = Some(slot);
                }
            }
            Op::Write { home, .. } => self.write(home, registers[0], &mut locked)?,
        }
        self.release_all(&reads);
        Some(())
    }

    fn fetch_all(&mut self, reads: &[usize], locked: &mut u16) -> Option<Vec<usize>> {
        if self.slips(Slip::OperandsLockedAtOnce) {
            reads.iter().filter_map(|&node| self.holder[node]).for_each(|register| *locked |= 1 << register);
        }
        let second = reads.get(1).filter(|&&node| node != reads[0] && self.holder[node].is_some());
        let mut registers = Vec::new();
        for &node in reads {
            let fetched = self.fetch(node, locked);
            let phase = if self.fixed.is_some() { Event::LockedInControl } else { Event::LockedInSample };
            self.saw(phase, fetched.is_none());
            registers.push(fetched?);
            let is_dropped = registers.len() == 1 && second.is_some_and(|&node| self.holder[node].is_none());
            self.saw(Event::SecondOperandDropped, is_dropped);
        }
        Some(registers)
    }

    fn compute(&mut self, node: usize, reads: &[usize], registers: &[usize], locked: u16) -> Option<()> {
        let dies = |&at: &usize| self.next_read(reads[at]).is_none();
        let dying: Vec<usize> = (0..reads.len()).filter(dies).collect();
        let lending = match self.slip {
            Some(Slip::SecondOperandLends) => dying.last(),
            Some(Slip::NoOperandLends) => None,
            _ => dying.first(),
        };
        let target = match lending {
            Some(&at) => {
                self.holder[reads[at]] = None;
                self.owner[registers[at]] = Some(node);
                self.holder[node] = Some(registers[at]);
                registers[at]
            }
            None => {
                let taken = self.take(node, locked);
                let phase = if self.fixed.is_some() { Event::LockedInControl } else { Event::LockedInSample };
                self.saw(phase, taken.is_none());
                taken?
            }
        };
        let is_pair = reads.len() == 2 && reads[0] != reads[1];
        self.saw(Event::FirstLends, dying.first() == Some(&0));
        self.saw(Event::SecondLends, dying.first() == Some(&1));
        self.saw(Event::BothDie, is_pair && dying.len() == 2);
        self.saw(Event::NoneDies, dying.is_empty());
        let code = match self.block.nodes[3 * node] {
            10 => 9,
            unary @ (12 | 13) => unary - 5,
            binary => binary - 3,
        };
        let word = |at: usize| registers.get(at).map_or(0, |&register| register as u32);
        self.list.compute([code * 4096 + target as u32 * 256 + word(0) * 16 + word(1), 0]);
        Some(())
    }

    fn write(&mut self, home: Source, register: usize, locked: &mut u16) -> Option<()> {
        let code = match home.0 {
            AUDIO => 12,
            memory => memory + 6,
        };
        if self.slips(Slip::StoredBeforeOldIsKept) {
            self.list.step(code, register, home.1);
        }
        if self.slips(Slip::ReaderSeesNewValue) {
            self.list.step(code, register, home.1);
            return Some(());
        }
        self.keep_old(home, locked)?;
        if !self.slips(Slip::StoredBeforeOldIsKept) {
            self.list.step(code, register, home.1);
        }
        for &node in self.nodes_of.get(&home).into_iter().flatten() {
            self.fresh[node] = false;
        }
        Some(())
    }

    /// Loads the values of `home` that are still to be read.
    fn keep_old(&mut self, home: Source, locked: &mut u16) -> Option<()> {
        for node in self.nodes_of.get(&home).cloned().unwrap_or_default() {
            if self.fresh[node] && self.next_read(node).is_some() {
                let is_held = self.holder[node].is_some();
                let fetched = self.fetch(node, locked);
                self.saw(Event::OldValueHeld, is_held);
                self.saw(Event::OldValueLoaded, !is_held && fetched.is_some());
                self.saw(Event::LockedByOldValue, fetched.is_none());
                fetched?;
            }
        }
        Some(())
    }

    fn fetch(&mut self, node: usize, locked: &mut u16) -> Option<usize> {
        let register = match self.holder[node] {
            Some(register) => register,
            None => {
                let register = self.take(node, *locked)?;
                self.fill(node, register);
                register
            }
        };
        *locked |= 1 << register;
        Some(register)
    }

    /// Loads, makes or reloads the node's value.
    fn fill(&mut self, node: usize, register: usize) {
        if self.fresh[node] {
            let (code, index) = self.sources[node].expect("what is fresh has a source");
            let is_again = std::mem::replace(&mut self.is_loaded[node], true);
            self.saw(Event::ConstantMadeAgain, is_again && code == IMMEDIATE);
            self.saw(Event::SourceLoadedAgain, is_again && code != IMMEDIATE);
            match code {
                IMMEDIATE => self.list.compute([4096 + register as u32 * 256, index]),
                _ => self.list.step(code, register, index),
            }
            return;
        }
        let slot = self.slot[node].expect("a value that was dropped has a slot");
        match self.fixed {
            Some(fixed) => {
                self.saw(if slot < fixed { Event::HoistedDroppedAndLoaded } else { Event::ControlReloaded }, true);
                self.list.step(6, register, slot);
            }
            None => {
                self.saw(Event::Reloaded, true);
                self.list.step(9, register, slot);
            }
        }
    }

    /// No spill is needed to drop it.
    fn is_kept(&self, node: usize) -> bool {
        self.slot[node].is_some() || self.fresh[node]
    }

    fn take(&mut self, node: usize, locked: u16) -> Option<usize> {
        let usable: Vec<usize> = (0..16).filter(|register| self.mask >> register & 1 == 1).collect();
        let mut free = usable.iter().copied().filter(|&register| self.owner[register].is_none());
        let found = if self.slips(Slip::HighestFreeRegister) { free.next_back() } else { free.next() };
        let register = match found {
            Some(register) => register,
            None => self.cleared(usable, locked)?,
        };
        self.owner[register] = Some(node);
        self.holder[node] = Some(register);
        self.most = self.most.max(self.owner.iter().flatten().count() as u32);
        Some(register)
    }

    /// Among the unlocked registers one whose value needs no spill, then the furthest next read, then the highest.
    fn cleared(&mut self, usable: Vec<usize>, locked: u16) -> Option<usize> {
        let distance = |register: usize| {
            let node = self.owner[register].expect("no register is free");
            (node, self.next_read(node).unwrap_or(usize::MAX))
        };
        let key = |register: usize| {
            let (node, distance) = distance(register);
            match self.slip {
                Some(Slip::EvictedByDistanceAlone) => (true, distance),
                Some(Slip::EvictedWithoutDistance) => (self.is_kept(node), 0),
                _ => (self.is_kept(node), distance),
            }
        };
        let locked = if self.slips(Slip::LockedRegisterTaken) { 0 } else { locked };
        let choices: Vec<usize> = usable.into_iter().filter(|register| locked >> register & 1 == 0).collect();
        let best = choices.iter().map(|&register| key(register)).max()?;
        let mut equal = choices.iter().copied().filter(|&register| key(register) == best);
        let is_tie = equal.clone().count() > 1;
        let is_nearer = choices.iter().any(|&register| distance(register).1 > best.1);
        let register = if self.slips(Slip::TieToLowestRegister) { equal.next() } else { equal.next_back() }?;
        let dropped = distance(register).0;
        self.saw(Event::Tie, is_tie);
        self.saw(Event::NearerDropped, is_nearer);
        self.saw(Event::DroppedWithoutSpill, self.is_kept(dropped));
        if !self.is_kept(dropped) {
            self.spill(dropped, register);
        }
        self.holder[dropped] = None;
        Some(register)
    }

    fn spill(&mut self, node: usize, register: usize) {
        self.saw(Event::SlotAgain, !self.freed.is_empty());
        self.saw(Event::SlotAgainOfSeveral, self.freed.len() > 1);
        let freed = match self.slip {
            Some(Slip::FirstFreedSlotFirst) if !self.freed.is_empty() => Some(self.freed.remove(0)),
            Some(Slip::SlotsNeverAgain) => None,
            _ => self.freed.pop(),
        };
        let slot = freed.unwrap_or(self.slots);
        self.slots = self.slots.max(slot + 1);
        self.slot[node] = Some(slot);
        let (event, code) = if self.fixed.is_some() { (Event::ControlSpilled, 13) } else { (Event::Spilled, 8) };
        self.saw(event, true);
        self.list.step(code, register, slot);
    }

    fn release_all(&mut self, reads: &[usize]) {
        let freed = self.freed.len();
        let mut reads = reads.to_vec();
        if self.slips(Slip::SecondOperandsSlotFreedFirst) {
            reads.reverse();
        }
        for node in reads {
            if self.next_read(node).is_none() {
                self.release(node);
            }
        }
        self.saw(Event::TwoSlotsFreed, self.freed.len() == freed + 2);
    }

    fn release(&mut self, node: usize) {
        if let Some(register) = self.holder[node].take() {
            self.owner[register] = None;
        }
        let lowest = if self.slips(Slip::HoistedSlotFreed) { 0 } else { self.fixed.unwrap_or(0) };
        if let Some(slot) = self.slot[node].take().filter(|&slot| slot >= lowest) {
            self.freed.push(slot);
        }
    }
}
