//! A block as document 01's word tables, and the Rust's `Block` made from it and read back. Floats go over by their
//! bits.
use crate::graph::{BinaryOp, Block, Category, Channels, Memory, Node, Parameter};
use crate::{Network, Result};

/// Header and the four lent tables, in the layout of document 01.
#[derive(Debug, Clone, Default, PartialEq, Eq)]
pub struct Tables {
    pub version: u32,
    pub category: u32,
    pub channels: u32,
    pub network: u32,
    pub output: u32,
    pub parameters: Vec<u32>,
    pub states: Vec<u32>,
    pub delays: Vec<u32>,
    pub nodes: Vec<u32>,
}

/// In the order of `Category`.
const CATEGORIES: [Category; 14] = [
    Category::GuitarOverdrive,
    Category::GuitarAmplifier,
    Category::BassAmplifier,
    Category::BassOverdrive,
    Category::Equalizer,
    Category::Compressor,
    Category::Delay,
    Category::Modulation,
    Category::Reverb,
    Category::Wah,
    Category::Utility,
    Category::Pitch,
    Category::Filter,
    Category::Synth,
];

const BINARY: [BinaryOp; 7] =
    [BinaryOp::Add, BinaryOp::Sub, BinaryOp::Mul, BinaryOp::Min, BinaryOp::Max, BinaryOp::SubBits, BinaryOp::Div];

impl Tables {
    /// The Rust's block, not validated; `None` where its types cannot hold the words (our answer 1). Parameter n is
    /// named `pn`, so that an error text says which one is meant. `outputs` are the network's words, sample by sample.
    pub fn block(&self, outputs: &[u32]) -> Option<Block> {
        Some(Block {
            version: self.version,
            blob_name: "block".into(),
            name: "block".into(),
            category: *CATEGORIES.get(self.category as usize)?,
            channels: match self.channels {
                0 => Channels::Stereo,
                1 => Channels::Mono,
                _ => return None,
            },
            parameters: records::<3>(&self.parameters)?
                .enumerate()
                .map(|(index, [min, max, default])| Parameter {
                    name: format!("p{index}"),
                    min: f32::from_bits(min),
                    max: f32::from_bits(max),
                    default: f32::from_bits(default),
                })
                .collect(),
            states: records::<2>(&self.states)?
                .map(|[initial, update]| Memory { initial: f32::from_bits(initial), update: updated(update) })
                .collect(),
            delays: records::<2>(&self.delays)?
                .map(|[length, update]| Memory { initial: length as usize, update: updated(update) })
                .collect(),
            nodes: records::<3>(&self.nodes)?.map(node).collect::<Option<_>>()?,
            output: self.output as usize,
            network: match self.network {
                0 => None,
                1 => Some(Network { outputs: outputs.iter().map(|&word| f32::from_bits(word)).collect() }),
                _ => return None,
            },
        })
    }

    /// The words of a block, as `block` takes them.
    pub fn of(block: &Block) -> Self {
        Self {
            version: block.version,
            category: CATEGORIES.iter().position(|&category| category == block.category).unwrap() as u32,
            channels: (block.channels == Channels::Mono) as u32,
            network: block.network.is_some() as u32,
            output: block.output as u32,
            parameters: block
                .parameters
                .iter()
                .flat_map(|p| [p.min.to_bits(), p.max.to_bits(), p.default.to_bits()])
                .collect(),
            states: block.states.iter().flat_map(|s| [s.initial.to_bits(), update_word(s.update)]).collect(),
            delays: block.delays.iter().flat_map(|d| [d.initial as u32, update_word(d.update)]).collect(),
            nodes: block.nodes.iter().flat_map(node_words).collect(),
        }
    }
}

/// The Rust's block from JSON, as words.
pub fn from_json(json: &str) -> Result<Tables> {
    Block::from_json(json).map(|block| Tables::of(&block))
}

fn records<const N: usize>(words: &[u32]) -> Option<impl Iterator<Item = [u32; N]>> {
    (words.len() % N == 0).then(|| words.chunks_exact(N).map(|record| record.try_into().unwrap()))
}

/// Update 0 means none, n+1 means node n.
fn updated(word: u32) -> Option<usize> {
    (word as usize).checked_sub(1)
}

fn update_word(update: Option<usize>) -> u32 {
    update.map_or(0, |node| node as u32 + 1)
}

fn node([code, first, second]: [u32; 3]) -> Option<Node> {
    let (word, index, rhs) = (first, first as usize, second as usize);
    let unused = match code {
        0 | 17 => first | second,
        5..=11 => 0,
        _ => second,
    };
    if unused != 0 {
        return None;
    }
    Some(match code {
        0 => Node::Input,
        1 => Node::Constant { value: f32::from_bits(word) },
        2 => Node::Parameter { index },
        3 => Node::State { index },
        4 => Node::Delay { index },
        5..=11 => Node::Binary { kind: BINARY[code as usize - 5], lhs: index, rhs },
        12 => Node::Neg { input: index },
        13 => Node::Abs { input: index },
        14 => Node::Recip { input: index },
        15 => Node::Tanh { input: index },
        16 => Node::Sigmoid { input: index },
        17 => Node::Network,
        _ => return None,
    })
}

fn node_words(node: &Node) -> [u32; 3] {
    let unary = |code, input: usize| [code, input as u32, 0];
    match *node {
        Node::Input => [0, 0, 0],
        Node::Constant { value } => [1, value.to_bits(), 0],
        Node::Parameter { index } => unary(2, index),
        Node::State { index } => unary(3, index),
        Node::Delay { index } => unary(4, index),
        Node::Binary { kind, lhs, rhs } => {
            let code = BINARY.iter().position(|&op| op == kind).unwrap() as u32 + 5;
            [code, lhs as u32, rhs as u32]
        }
        Node::Neg { input } => unary(12, input),
        Node::Abs { input } => unary(13, input),
        Node::Recip { input } => unary(14, input),
        Node::Tanh { input } => unary(15, input),
        Node::Sigmoid { input } => unary(16, input),
        Node::Network => [17, 0, 0],
    }
}
