//! Times of ours reading and writing a long rendering, beside a copy of the file's bytes and a sum of its words in Rust: that much any
//! reader or writer does.
use std::cell::RefCell;
use std::hint::black_box;

use crate::bench::compare;
use crate::house::{GRAPH, pack, rendering_payload, words_of};
use crate::ours::{Call, Function, Ours};
use crate::random::Random;

/// Ten minutes at 48 kHz, mono.
const SAMPLES: usize = 10 * 60 * 48_000;

pub fn run(ours: &mut Ours) {
    let random = &mut Random::new(1);
    let samples: Vec<u32> = (0..SAMPLES).map(|_| random.word()).collect();
    let file = words_of(&pack(GRAPH, &rendering_payload(&samples)));
    let (room, length) = (vec![0; file.len()], 4 * file.len() as u32);
    let (function, scalars) = (Function::ReadRendering, vec![length]);
    let slices: Vec<&[u32]> = vec![&file, &room[..SAMPLES], &[0, 0]];
    time(
        ours,
        "read",
        &file,
        &Call { function, scalars: scalars.clone(), slices, written: 1 },
        [GRAPH, SAMPLES as u32],
    );
    let slices: Vec<&[u32]> = vec![&samples, &room, &[0, 0]];
    time(ours, "write", &file, &Call { function: Function::WriteGraph, scalars, slices, written: 1 }, [length, 0]);
}

/// The call, which gives this answer, beside a copy and a sum.
fn time(ours: &mut Ours, name: &str, file: &[u32], call: &Call, said: [u32; 2]) {
    let answer = ours.call(call.clone());
    assert!(answer.result == 0 && answer.slices[0] == said, "ours answers {} {:x?}", answer.result, answer.slices);
    let copy = RefCell::new(vec![0; file.len()]);
    let copied_and_summed = || {
        copy.borrow_mut().copy_from_slice(black_box(file));
        black_box(&copy);
        black_box(black_box(file).iter().fold(0, |sum: u32, &word| sum.wrapping_add(word)));
    };
    let name = format!("{name}, {SAMPLES} samples; copy and sum");
    let took = compare(ours, &name, || Call { written: 0, ..call.clone() }, || (), copied_and_summed);
    let [ours, rust] = took.map(|microseconds| 4.0 * file.len() as f64 / microseconds / 1_000.0);
    println!("{:<48} ours {ours:>9.2} GB/s Rust {rust:>9.2} GB/s", "");
}
