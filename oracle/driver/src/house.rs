//! The house file of document 01, read and written from the text of its section "House file" alone.
use qcdsp::tables::Tables;

pub const EFFECT: u32 = 1;
pub const GRAPH: u32 = 2;
pub const STEPS: u32 = 3;

/// A block of 512 bytes has 128 words: three, the payload's, and the check.
pub const BLOCK_BYTES: usize = 512;
pub const BLOCK_WORDS: usize = 128;
pub const PAYLOAD_WORDS: usize = 124;
const CHECK: usize = 127;

const WRONG_CHECK: u32 = 20;
const BAD_FRAME: u32 = 21;

/// "The wrapping sum of all 128 words is 0xFFFFFFFF": what the check is, so that it holds.
pub fn seal(block: &mut [u32]) {
    block[CHECK] = u32::MAX.wrapping_sub(sum(&block[..CHECK]));
}

fn sum(words: &[u32]) -> u32 {
    words.iter().fold(0, |sum, &word| sum.wrapping_add(word))
}

pub fn bytes_of(words: &[u32]) -> Vec<u8> {
    words.iter().flat_map(|word| word.to_le_bytes()).collect()
}

/// The words of whole groups of four bytes, and of the rest with zeros behind it.
pub fn words_of(bytes: &[u8]) -> Vec<u32> {
    let word = |group: &[u8]| group.iter().rev().fold(0, |word, &byte| word << 8 | u32::from(byte));
    bytes.chunks(4).map(word).collect()
}

/// "Each block but the last uses 124; the last 1..124; the rest is 0."
pub fn pack(kind: u32, payload: &[u32]) -> Vec<u8> {
    let mut words = Vec::new();
    for (number, part) in payload.chunks(PAYLOAD_WORDS).enumerate() {
        let start = words.len();
        words.extend([kind, number as u32, part.len() as u32]);
        words.extend(part);
        words.resize(start + BLOCK_WORDS, 0);
        seal(&mut words[start..]);
    }
    bytes_of(&words)
}

/// The kind and the payload of a file of one of these kinds, or 20 or 21: "A length of 0 or not a multiple of 512 is 21
/// before all; then blocks are judged in order, 20 before 21 in each".
pub fn unpack(bytes: &[u8], kinds: &[u32]) -> Result<(u32, Vec<u32>), u32> {
    if bytes.is_empty() || !bytes.len().is_multiple_of(BLOCK_BYTES) {
        return Err(BAD_FRAME);
    }
    let words = words_of(bytes);
    let last = words.len() / BLOCK_WORDS - 1;
    let mut payload = Vec::new();
    for (number, block) in words.chunks(BLOCK_WORDS).enumerate() {
        if sum(block) != u32::MAX {
            return Err(WRONG_CHECK);
        }
        let (kind, used) = (block[0], block[2] as usize);
        let is_kind = kinds.contains(&kind) && kind == words[0];
        let is_used = if number == last { (1..=PAYLOAD_WORDS).contains(&used) } else { used == PAYLOAD_WORDS };
        if !is_kind || block[1] as usize != number || !is_used {
            return Err(BAD_FRAME);
        }
        let (held, rest) = block[3..CHECK].split_at(used);
        if rest.iter().any(|&word| word != 0) {
            return Err(BAD_FRAME);
        }
        payload.extend(held);
    }
    Ok((words[0], payload))
}

/// "version, category, channels, flag, counts of parameters, states, delays, nodes, output, then the tables in that order".
pub fn block_payload(block: &Tables) -> Vec<u32> {
    let tables = [(&block.parameters, 3), (&block.states, 2), (&block.delays, 2), (&block.nodes, 3)];
    let mut payload = vec![block.version, block.category, block.channels, block.network];
    payload.extend(tables.map(|(table, width)| (table.len() / width) as u32));
    payload.push(block.output);
    tables.iter().for_each(|(table, _)| payload.extend(*table));
    payload
}

/// "sample count, then samples"
pub fn rendering_payload(samples: &[u32]) -> Vec<u32> {
    [&[samples.len() as u32], samples].concat()
}

/// "The payload ends exactly there"; that is judged last.
pub fn read_block(bytes: &[u8]) -> Result<Tables, u32> {
    let (_, payload) = unpack(bytes, &[EFFECT])?;
    let [version, category, channels, network, parameters, states, delays, nodes, output, ref rest @ ..] = payload[..]
    else {
        return Err(BAD_FRAME);
    };
    let sizes = [(parameters, 3), (states, 2), (delays, 2), (nodes, 3)].map(|(count, width)| u64::from(count) * width);
    if sizes.iter().sum::<u64>() != rest.len() as u64 {
        return Err(BAD_FRAME);
    }
    let mut rest = rest;
    let [parameters, states, delays, nodes] = sizes.map(|size| {
        let (table, behind) = rest.split_at(size as usize);
        rest = behind;
        table.to_vec()
    });
    Ok(Tables { version, category, channels, network, output, parameters, states, delays, nodes })
}

/// The kind, 2 or 3, and the samples.
pub fn read_rendering(bytes: &[u8]) -> Result<(u32, Vec<u32>), u32> {
    let (kind, payload) = unpack(bytes, &[GRAPH, STEPS])?;
    match payload[..] {
        [count, ref samples @ ..] if samples.len() as u64 == u64::from(count) => Ok((kind, samples.to_vec())),
        _ => Err(BAD_FRAME),
    }
}
