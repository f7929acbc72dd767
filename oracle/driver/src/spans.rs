//! Finite tests, parameter spans and ranges (document 01, answers 7 and 18) against the Rust's `f32::is_finite`,
//! `Parameter::new` and `Processor::set_parameter`.
use qcdsp::tables::Tables;
use qcdsp::{Parameter, Processor};

use crate::ours::{Function, Ours};
use crate::random::Random;
use crate::shrink::{smaller_words, smallest};
use crate::words::{random_pair, specials};

#[derive(Debug, Clone, Copy, PartialEq, Eq)]
pub enum Test {
    /// Of the last word.
    Finite,
    /// Min, max and default.
    Span,
    /// Min, max and value.
    Range,
}

impl Test {
    /// What the Rust says; `None` where it makes no block with such a parameter.
    pub fn rust(self, words: [u32; 3]) -> Option<bool> {
        let [min, max, last] = words.map(f32::from_bits);
        match self {
            Self::Finite => Some(last.is_finite()),
            Self::Span => Some(Parameter::new("p", min, max, last).is_ok()),
            Self::Range => {
                let parameters = vec![words[0], words[1], words[0]];
                let nodes = vec![0, 0, 0];
                let block = Tables { version: 1, category: 10, parameters, nodes, ..Tables::default() }.block(&[])?;
                Some(Processor::new(block).ok()?.set_parameter(0, last).is_ok())
            }
        }
    }

    fn ours(self, ours: &mut Ours, spans: &[[u32; 3]]) -> Vec<u32> {
        let part = |at: usize| spans.iter().map(|span| span[at]).collect::<Vec<_>>();
        let (min, max, last) = (part(0), part(1), part(2));
        match self {
            Self::Finite => ours.words(Function::IsFinite, &[&last]),
            Self::Span => ours.words(Function::SpanIsValid, &[&min, &max, &last]),
            Self::Range => ours.words(Function::InRange, &[&min, &max, &last]),
        }
    }

    /// How many were compared, and of how many the answer is yes.
    fn compare(self, ours: &mut Ours, spans: &[[u32; 3]]) -> Result<[u64; 2], String> {
        let mut counts = [0, 0];
        for (&span, answer) in spans.iter().zip(self.ours(ours, spans)) {
            let Some(rust) = self.rust(span) else { continue };
            if answer != u32::from(rust) {
                return Err(self.difference(ours, span));
            }
            counts = [counts[0] + 1, counts[1] + u64::from(rust)];
        }
        Ok(counts)
    }

    fn difference(self, ours: &mut Ours, span: [u32; 3]) -> String {
        let mut fails = |&span: &[u32; 3]| {
            let answer = self.ours(ours, &[span])[0];
            self.rust(span).is_some_and(|rust| u32::from(rust) != answer)
        };
        let [a, b, c] = smallest(span, smaller_words, &mut fails);
        let rust = self.rust([a, b, c]).unwrap();
        format!("{self:?} {a:08x} {b:08x} {c:08x}: ours {}, the Rust {rust}", !rust)
    }
}

/// Words of a parameter, chosen so that a good part of them is valid.
pub fn random_span(random: &mut Random, specials: &[u32]) -> [u32; 3] {
    let [a, b] = match random.below(3) {
        0 => [random.pick(specials), random.pick(specials)],
        _ => random_pair(random, specials),
    };
    let [a, b] = if f32::from_bits(a) > f32::from_bits(b) && !random.one_in(8) { [b, a] } else { [a, b] };
    let between = f32::from_bits(a) / 2.0 + f32::from_bits(b) / 2.0;
    let last = match random.below(6) {
        0 => random.word(),
        1 => random.pick(specials),
        2 => a.wrapping_add(random.below(3) as u32).wrapping_sub(1),
        3 => b.wrapping_add(random.below(3) as u32).wrapping_sub(1),
        _ if between.is_nan() => 0x7fc0_0000,
        _ => between.to_bits(),
    };
    [a, b, last]
}

/// All triples of special words and `count` random ones.
pub fn compare(ours: &mut Ours, seed: u64, count: u64) -> Result<(), String> {
    let specials = specials();
    let mut random = Random::new(seed);
    let mut spans: Vec<[u32; 3]> = (0..count).map(|_| random_span(&mut random, &specials)).collect();
    for &a in &specials {
        for &b in &specials {
            spans.extend(specials.iter().map(|&c| [a, b, c]));
        }
    }
    let [all, finite] = Test::Finite.compare(ours, &spans)?;
    println!("words: {all} finite tests equal, {finite} of them finite");
    let [all, valid] = Test::Span.compare(ours, &spans)?;
    println!("words: {all} parameter spans equal, {valid} of them valid");
    let [all, inside] = Test::Range.compare(ours, &spans)?;
    println!("words: {all} range tests equal, {inside} of them inside");
    Ok(())
}
