//! Smaller cases of house files, for the smallest that fails.
use crate::files::{Case, Content, Reading, Writing};
use crate::house::{self, BLOCK_BYTES, BLOCK_WORDS, bytes_of, words_of};
use crate::shrink::{parts, smaller_blocks};

pub fn smaller(case: Case) -> Box<dyn Iterator<Item = Case>> {
    match case {
        Case::Read(reading) => {
            let files = fewer_blocks(reading.file.clone()).chain(more_zeros(reading.file.clone()));
            let lent = shorter_tables(reading.lent.clone());
            let of = reading.clone();
            let files = files.map(move |file| Case::Read(Reading { file, ..of.clone() }));
            Box::new(files.chain(lent.map(move |lent| Case::Read(Reading { lent, ..reading.clone() }))))
        }
        Case::Write(writing) => {
            // as many bytes to spare, or too few
            let spare = writing.lent as i64 - writing.content.file().len() as i64;
            let of = writing.clone();
            let contents = smaller_contents(writing.content.clone()).map(move |content| {
                let lent = (content.file().len() as i64 + spare).max(0) as usize;
                Case::Write(Writing { content, lent, ..of.clone() })
            });
            let lent = less_than(writing.lent);
            Box::new(contents.chain(lent.map(move |lent| Case::Write(Writing { lent, ..writing.clone() }))))
        }
    }
}

/// The file without some of its blocks, the others numbered anew or not.
fn fewer_blocks(file: Vec<u8>) -> impl Iterator<Item = Vec<u8>> {
    parts(file.len().div_ceil(BLOCK_BYTES)).flat_map(move |(start, end)| {
        let mut fewer = file.clone();
        fewer.drain(start * BLOCK_BYTES..file.len().min(end * BLOCK_BYTES));
        [numbered(&fewer), fewer]
    })
}

/// The file with words at 0 that were not, with right checks or the same.
fn more_zeros(file: Vec<u8>) -> impl Iterator<Item = Vec<u8>> {
    parts(file.len() / 4).flat_map(move |(start, end)| {
        let mut zeros = file.clone();
        zeros[4 * start..4 * end].fill(0);
        let before = held(&file);
        [sealed(&zeros), zeros].into_iter().filter(move |zeros| held(zeros) < before)
    })
}

fn shorter_tables(lent: Vec<usize>) -> impl Iterator<Item = Vec<usize>> {
    (0..lent.len()).flat_map(move |table| {
        let lent = lent.clone();
        less_than(lent[table]).map(move |less| {
            let mut shorter = lent.clone();
            shorter[table] = less;
            shorter
        })
    })
}

fn less_than(count: usize) -> impl Iterator<Item = usize> {
    [0, count / 2, count.saturating_sub(1)].into_iter().filter(move |&less| less < count)
}

fn smaller_contents(content: Content) -> Box<dyn Iterator<Item = Content>> {
    match content {
        Content::Block(block) => Box::new(smaller_blocks(block).map(Content::Block)),
        Content::Rendering(kind, samples) => {
            Box::new(smaller_samples(samples).map(move |samples| Content::Rendering(kind, samples)))
        }
    }
}

/// Fewer samples, or more of them 0.
fn smaller_samples(samples: Vec<u32>) -> impl Iterator<Item = Vec<u32>> {
    parts(samples.len()).flat_map(move |(start, end)| {
        let (mut fewer, mut zeros) = (samples.clone(), samples.clone());
        fewer.drain(start..end);
        zeros[start..end].fill(0);
        let zeros = (zeros != samples).then_some(zeros);
        [fewer].into_iter().chain(zeros)
    })
}

/// How many words of the file are not 0, the checks apart.
fn held(file: &[u8]) -> usize {
    words_of(file)
        .chunks(BLOCK_WORDS)
        .flat_map(|block| block.iter().take(BLOCK_WORDS - 1))
        .filter(|word| **word != 0)
        .count()
}

/// The file with every whole block's check made right.
fn sealed(file: &[u8]) -> Vec<u8> {
    let whole = file.len() / BLOCK_BYTES * BLOCK_BYTES;
    let mut words = words_of(&file[..whole]);
    words.chunks_mut(BLOCK_WORDS).for_each(house::seal);
    [bytes_of(&words), file[whole..].to_vec()].concat()
}

/// The same, with the blocks' numbers made right as well.
fn numbered(file: &[u8]) -> Vec<u8> {
    let mut file = file.to_vec();
    for (number, block) in file.chunks_exact_mut(BLOCK_BYTES).enumerate() {
        block[4..8].copy_from_slice(&(number as u32).to_le_bytes());
    }
    sealed(&file)
}
