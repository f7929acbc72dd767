//! The smallest failing case: goes from a case that fails to a smaller one that fails, as long as there is one.
use qcdsp::tables::Tables;

use crate::generate::operands;

/// `smaller` gives cases that are each smaller than the given one; `fails` tells whether a case shows the difference.
pub fn smallest<T, I: Iterator<Item = T>>(start: T, smaller: impl Fn(T) -> I, mut fails: impl FnMut(&T) -> bool) -> T
where
    T: Clone,
{
    let mut case = start;
    while let Some(next) = smaller(case.clone()).find(|next| fails(next)) {
        case = next;
    }
    case
}

/// The words with one bit less set.
pub fn smaller_words<const N: usize>(words: [u32; N]) -> impl Iterator<Item = [u32; N]> {
    (0..N * 32).filter(move |bit| words[bit / 32] >> (bit % 32) & 1 == 1).map(move |bit| {
        let mut smaller = words;
        smaller[bit / 32] &= !(1 << (bit % 32));
        smaller
    })
}

/// The block without some of its records, the largest parts first, and then with single words at 0.
pub fn smaller_blocks(block: Tables) -> impl Iterator<Item = Tables> {
    let (parts_of, zeros_of) = (block.clone(), block);
    let parts = Table::ALL.into_iter().flat_map(move |table| {
        let block = parts_of.clone();
        let count = table.words(&block).len() / table.width();
        parts(count).map(move |(start, end)| without(&block, table, start, end))
    });
    let count = 5 + Table::ALL.iter().map(|table| table.words(&zeros_of).len()).sum::<usize>();
    let zeros = (0..count).filter_map(move |at| with_zero(&zeros_of, at));
    parts.chain(zeros)
}

/// Halves, quarters and so on down to single places of `0..count`.
pub fn parts(count: usize) -> impl Iterator<Item = (usize, usize)> {
    std::iter::successors(Some(count), |&size| (size > 1).then(|| size.div_ceil(2)))
        .filter(|&size| size > 0)
        .flat_map(move |size| (0..count).step_by(size).map(move |start| (start, count.min(start + size))))
}

#[derive(Debug, Clone, Copy, PartialEq, Eq)]
enum Table {
    Parameters,
    States,
    Delays,
    Nodes,
}

impl Table {
    const ALL: [Self; 4] = [Self::Nodes, Self::Delays, Self::States, Self::Parameters];

    fn width(self) -> usize {
        if matches!(self, Self::Parameters | Self::Nodes) { 3 } else { 2 }
    }

    fn words(self, block: &Tables) -> &Vec<u32> {
        match self {
            Self::Parameters => &block.parameters,
            Self::States => &block.states,
            Self::Delays => &block.delays,
            Self::Nodes => &block.nodes,
        }
    }

    fn words_mut(self, block: &mut Tables) -> &mut Vec<u32> {
        match self {
            Self::Parameters => &mut block.parameters,
            Self::States => &mut block.states,
            Self::Delays => &mut block.delays,
            Self::Nodes => &mut block.nodes,
        }
    }

    /// The code of a node that has an index into this table.
    fn reader(self) -> Option<u32> {
        match self {
            Self::Parameters => Some(2),
            Self::States => Some(3),
            Self::Delays => Some(4),
            Self::Nodes => None,
        }
    }
}

/// The block without the table's records from start to end; what names a later record still names it.
fn without(block: &Tables, table: Table, start: usize, end: usize) -> Tables {
    let mut smaller = block.clone();
    table.words_mut(&mut smaller).drain(start * table.width()..end * table.width());
    let moved = |word: &mut u32| {
        if *word as usize >= end {
            *word -= (end - start) as u32;
        } else if *word as usize >= start {
            *word = start.saturating_sub(1) as u32;
        }
    };
    for node in smaller.nodes.chunks_exact_mut(3) {
        if let Some(code) = table.reader() {
            if node[0] == code {
                moved(&mut node[1]);
            }
        } else {
            let count = operands(node[0]);
            node[1..=count].iter_mut().for_each(moved);
        }
    }
    if table == Table::Nodes {
        moved(&mut smaller.output);
        for memory in smaller.states.chunks_exact_mut(2).chain(smaller.delays.chunks_exact_mut(2)) {
            if memory[1] > 0 {
                memory[1] -= 1;
                moved(&mut memory[1]);
                memory[1] += 1;
            }
        }
    }
    smaller
}

/// The block with the `at`-th of its words at 0: header, then tables; `None` where it is 0 already.
fn with_zero(block: &Tables, at: usize) -> Option<Tables> {
    let mut smaller = block.clone();
    let header =
        [&mut smaller.version, &mut smaller.category, &mut smaller.channels, &mut smaller.network, &mut smaller.output];
    let tables = [&mut smaller.parameters, &mut smaller.states, &mut smaller.delays, &mut smaller.nodes];
    let word = header.into_iter().chain(tables.into_iter().flatten()).nth(at)?;
    if std::mem::replace(word, 0) == 0 { None } else { Some(smaller) }
}
