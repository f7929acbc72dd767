//! A `Processor`'s memories, values and machine as words, as they stand in our lent tables.
use super::{DelayBuffer, Processor};

/// States, the delay lines one behind the other, and their cursors.
#[derive(Debug, Clone, Default, PartialEq, Eq)]
pub struct Memories {
    pub held: Vec<u32>,
    pub area: Vec<u32>,
    pub cursors: Vec<u32>,
}

/// What a kernel leaves in registers and slots.
#[derive(Debug, Clone, Default, PartialEq, Eq)]
pub struct Machine {
    pub registers: Vec<u32>,
    pub control: Vec<u32>,
    pub spills: Vec<u32>,
}

fn words(values: &[f32]) -> Vec<u32> {
    values.iter().map(|value| value.to_bits()).collect()
}

impl Processor {
    pub fn memories(&self) -> Memories {
        Memories {
            held: words(&self.states),
            area: self.delays.iter().flat_map(|delay| words(&delay.samples)).collect(),
            cursors: self.delays.iter().map(|delay| delay.cursor as u32).collect(),
        }
    }

    pub fn put_memories(&mut self, memories: &Memories) {
        for (state, &word) in self.states.iter_mut().zip(&memories.held) {
            *state = f32::from_bits(word);
        }
        let mut cells = memories.area.iter();
        for (DelayBuffer { samples, cursor }, &at) in self.delays.iter_mut().zip(&memories.cursors) {
            *cursor = at as usize;
            samples.fill_with(|| f32::from_bits(*cells.next().unwrap()));
        }
    }

    pub fn parameters(&self) -> Vec<u32> {
        words(&self.parameters)
    }

    pub fn put_parameters(&mut self, settings: &[u32]) {
        self.parameters = settings.iter().map(|&word| f32::from_bits(word)).collect();
    }

    /// Whether the last sample of the graph is in the domain of equality: no node's value is NaN, and min and max met
    /// no zeros of opposite sign.
    pub fn is_compared(&self) -> bool {
        let values = &self.values;
        let opposite = |lhs: f32, rhs: f32| lhs == 0.0 && rhs == 0.0 && lhs.to_bits() != rhs.to_bits();
        self.block.nodes.iter().zip(values).all(|(node, value)| {
            !value.is_nan()
                && match *node {
                    super::Node::Binary { kind: super::BinaryOp::Min | super::BinaryOp::Max, lhs, rhs } => {
                        !opposite(values[lhs], values[rhs])
                    }
                    _ => true,
                }
        })
    }

    pub fn machine(&self) -> Option<Machine> {
        self.lowered.as_ref().map(|lowered| Machine {
            registers: words(&lowered.registers),
            control: words(&lowered.controls),
            spills: words(&lowered.spills),
        })
    }
}
