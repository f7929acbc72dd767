//! Document 01's step checker, written from its text alone ("What the step checker passes"): the Rust has none.
use std::collections::HashMap;

use qcdsp::kernels::KernelTables;
use qcdsp::tables::Tables;

/// The first failing step's position, control first, or the total if a store is missing at the end.
pub type Refused = u64;

/// A node's class, by its code and its keys: constant bits or an index, or the classes of its operands.
type Keys = HashMap<[u32; 3], usize>;

pub struct Checker<'a> {
    expanded: &'a Tables,
    mask: u32,
    kernel: &'a KernelTables,
    keys: Keys,
    classes: Vec<usize>,
    registers: [Option<usize>; 16],
    control: Vec<Option<usize>>,
    spills: Vec<Option<usize>>,
    stored: [Vec<bool>; 2],
    output: bool,
}

/// The operands among a node's two words.
pub fn operands(code: u32) -> usize {
    match code {
        5..=10 => 2,
        12 | 13 => 1,
        _ => 0,
    }
}

fn classes(nodes: &[u32]) -> (Keys, Vec<usize>) {
    let (mut keys, mut classes) = (Keys::new(), Vec::new());
    for (index, node) in nodes.chunks(3).enumerate() {
        let mut key = [node[0], node[1], node[2]];
        for word in key.iter_mut().skip(1).take(operands(node[0])) {
            *word = classes[*word as usize] as u32;
        }
        classes.push(*keys.entry(key).or_insert(index));
    }
    (keys, classes)
}

/// The expanded block, the mask, the kernel: passed, or refused.
pub fn check(expanded: &Tables, mask: u32, kernel: &KernelTables) -> Result<(), Refused> {
    let (keys, classes) = classes(&expanded.nodes);
    let [control, sample, _, slots, spills] = kernel.counts.map(|count| count as usize);
    let mut checker = Checker {
        expanded,
        mask,
        kernel,
        keys,
        classes,
        registers: [None; 16],
        control: vec![None; slots],
        spills: vec![None; spills],
        stored: [vec![false; expanded.states.len() / 2], vec![false; expanded.delays.len() / 2]],
        output: false,
    };
    for position in 0..control {
        checker.step(position, false, false).ok_or(position as u64)?;
    }
    checker.registers = [None; 16];
    for position in control..control + sample {
        checker.step(position, true, position + 1 == control + sample).ok_or(position as u64)?;
    }
    let is_missing = |memories: &[u32], stored: &[bool]| {
        memories.chunks(2).zip(stored).any(|(memory, &stored)| memory[1] != 0 && !stored)
    };
    if is_missing(&expanded.states, &checker.stored[0]) || is_missing(&expanded.delays, &checker.stored[1]) || !checker.output {
        return Err((control + sample) as u64);
    }
    Ok(())
}

impl Checker<'_> {
    fn usable(&self, register: u32) -> Option<usize> {
        (self.mask >> register & 1 == 1).then_some(register as usize)
    }

    fn filled(&self, register: u32) -> Option<usize> {
        self.registers[self.usable(register)?]
    }

    fn class(&self, code: u32, first: usize, second: usize) -> Option<usize> {
        self.keys.get(&[code, first as u32, second as u32]).copied()
    }

    /// One step; nothing where it fails.
    fn step(&mut self, position: usize, is_sample: bool, is_last: bool) -> Option<()> {
        let (word, index) = (self.kernel.steps[2 * position], self.kernel.steps[2 * position + 1]);
        let (code, register, at) = (word / 16, word % 16, index as usize);
        let is_allowed = if is_sample { (1..=12).contains(&code) } else { [3, 6, 7, 13].contains(&code) };
        let is_formed = match code {
            1 | 2 | 12 => index == 0,
            7 => register == 0,
            _ => true,
        };
        if !is_allowed || !is_formed {
            return None;
        }
        match code {
            1..=6 => {
                let target = self.usable(register)?;
                self.registers[target] = Some(self.loaded(code, at)?);
            }
            7 => self.compute(at)?,
            8 => {
                let class = self.filled(register)?;
                *self.spills.get_mut(at)? = Some(class);
            }
            9 => {
                let target = self.usable(register)?;
                self.registers[target] = Some((*self.spills.get(at)?)?);
            }
            10 | 11 => self.store(code as usize - 10, at, register)?,
            12 => {
                let class = self.filled(register)?;
                if !is_last || class != self.classes[self.expanded.output as usize] {
                    return None;
                }
                self.output = true;
            }
            _ => {
                let class = self.filled(register)?;
                *self.control.get_mut(at)? = Some(class);
            }
        }
        Some(())
    }

    fn loaded(&self, code: u32, index: usize) -> Option<usize> {
        let is_inside = |table: &[u32], words: usize| index < table.len() / words;
        match code {
            1 => self.class(0, 0, 0),
            2 => self.class(17, 0, 0),
            3 if is_inside(&self.expanded.parameters, 3) => self.class(2, index, 0),
            4 if is_inside(&self.expanded.states, 2) && !self.stored[0][index] => self.class(3, index, 0),
            5 if is_inside(&self.expanded.delays, 2) && !self.stored[1][index] => self.class(4, index, 0),
            6 => *self.control.get(index)?,
            _ => None,
        }
    }

    fn store(&mut self, memory: usize, index: usize, register: u32) -> Option<()> {
        let class = self.filled(register)?;
        let table = [&self.expanded.states, &self.expanded.delays][memory];
        let update = table.chunks(2).nth(index)?[1];
        if update == 0 || self.stored[memory][index] || class != self.classes[update as usize - 1] {
            return None;
        }
        self.stored[memory][index] = true;
        Some(())
    }

    fn compute(&mut self, index: usize) -> Option<()> {
        if index >= self.kernel.counts[2] as usize {
            return None;
        }
        let (word, immediate) = (self.kernel.instructions[2 * index], self.kernel.instructions[2 * index + 1]);
        let (code, dst, lhs, rhs) = (word / 4096, word / 256 % 16, word / 16 % 16, word % 16);
        let is_formed = match code {
            1 => lhs == 0 && rhs == 0,
            2..=6 | 9 => immediate == 0,
            7 | 8 => rhs == 0 && immediate == 0,
            _ => false,
        };
        if !is_formed {
            return None;
        }
        let target = self.usable(dst)?;
        let class = match code {
            1 => self.class(1, immediate as usize, 0),
            2..=6 => self.class(code + 3, self.filled(lhs)?, self.filled(rhs)?),
            7 | 8 => self.class(code + 5, self.filled(lhs)?, 0),
            _ => self.class(10, self.filled(lhs)?, self.filled(rhs)?),
        };
        self.registers[target] = Some(class?);
        Some(())
    }
}
