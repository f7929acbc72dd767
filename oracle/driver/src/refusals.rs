//! Refusals of set, reset and both runs by name: each clause of 13, 15, 16, 17 and 18 with the answer that document 01
//! gives it, and lists of steps that look bad and are not. The Rust has no such answers.
use qcdsp::tables::Tables;

use crate::ours::Ours;
use crate::playing::{self, Play};
use crate::runs::{Case, Question, lent};

type Change = Box<dyn Fn(&mut Question)>;

/// A name, the answer, and how the good call is changed.
struct Refusal(&'static str, u32, Change);

const SAMPLES: [u32; 5] = [0x3f80_0000, 0xbf00_0000, 0x0000_0001, 0x3e80_0000, 0x4000_0000];

/// One parameter, two states, delays of length 1 and 3, a computation that is hoisted.
fn play(flag: u32) -> Play {
    let block = Tables {
        version: 3,
        category: 10,
        channels: flag,
        network: flag,
        output: 8,
        parameters: vec![0, 0x3f80_0000, 0x3f00_0000],
        states: vec![0x3f00_0000, 9, 0x3f80_0000, 0],
        delays: vec![1, 5, 3, 9],
        nodes: [
            [0, 0, 0],
            [2, 0, 0],
            [3, 0, 0],
            [4, 1, 0],
            [5, 0, 1],
            [7, 4, 2],
            [12, 1, 0],
            [7, 5, 6],
            [5, 7, 3],
        ]
        .concat(),
    };
    Play {
        settings: vec![0x3f00_0000],
        memories: playing::start(&block),
        input: SAMPLES.to_vec(),
        network: if flag == 1 { SAMPLES.to_vec() } else { vec![] },
        spare: 0,
        extra: 0,
        block,
    }
}

fn slice<'a>(question: &'a mut Question, name: &str) -> &'a mut Vec<u32> {
    &mut question.slices.iter_mut().find(|slice| slice.0 == name).unwrap().1
}

/// A word less, or one more.
fn shorter(name: &'static str) -> Change {
    Box::new(move |question| {
        slice(question, name).pop();
    })
}

fn longer(name: &'static str) -> Change {
    Box::new(move |question| slice(question, name).push(0))
}

fn scalar(at: usize, word: u32) -> Change {
    Box::new(move |question| question.scalars[at] = word)
}

fn word(name: &'static str, at: usize, word: u32) -> Change {
    Box::new(move |question| slice(question, name)[at] = word)
}

fn both(first: Change, second: Change) -> Change {
    Box::new(move |question| {
        first(question);
        second(question);
    })
}

/// The call as changed, refused: no lent table may change but the first answer word.
fn refused(good: &Question, number: u32, change: &Change) -> Question {
    let mut question = good.clone();
    change(&mut question);
    question.number = number;
    question.left = question.slices[question.slices.len() - question.left.len()..].to_vec();
    question.left.last_mut().unwrap().1[0] = 0;
    question
}

fn ask(ours: &mut Ours, good: &Question, refusals: &[Refusal]) -> Result<usize, String> {
    for Refusal(name, number, change) in refusals {
        let question = refused(good, *number, change);
        if let Some(difference) = question.difference(&ours.call(question.call())) {
            return Err(format!("{name}: {difference}\nscalars {:x?}\n{:x?}", question.scalars, question.slices));
        }
    }
    Ok(refusals.len())
}

/// Answer 16 for both runs, and the block's answers before it.
fn sizes() -> Vec<Refusal> {
    let mut refusals = vec![
        Refusal("a cursor at its line's length", 16, word("cursors", 1, 3)),
        Refusal("a cursor at the length of a line of one cell", 16, word("cursors", 0, 1)),
        Refusal("a cursor of 2^32-1", 16, word("cursors", 0, u32::MAX)),
        Refusal("an input longer than the output", 16, longer("input")),
        Refusal("version before size", 2, both(scalar(0, 4), longer("input"))),
        Refusal("output node before size", 8, both(scalar(4, 9), longer("input"))),
    ];
    for name in ["settings", "states held", "the delay area", "cursors", "output"] {
        refusals.push(Refusal("a table a word short", 16, shorter(name)));
        refusals.push(Refusal("a table a word long", 16, longer(name)));
    }
    refusals
}

fn graph() -> Vec<Refusal> {
    let mut refusals = sizes();
    for name in ["the expansion", "values"] {
        refusals.push(Refusal("a short table", 13, shorter(name)));
        refusals.push(Refusal("13 before 16", 13, both(shorter(name), longer("settings"))));
        refusals.push(Refusal("the block before 13", 2, both(shorter(name), scalar(0, 0))));
    }
    refusals
}

/// Both runs with the flag set.
fn network() -> Vec<Refusal> {
    vec![
        Refusal("a network word too few", 16, shorter("network")),
        Refusal("a network word too many", 16, longer("network")),
    ]
}

const CONTROL: usize = 5;
const SAMPLE: usize = 6;
const INSTRUCTIONS: usize = 7;
const SLOTS: usize = 8;
const SPILLS: usize = 9;
const BUDGET: usize = 10;

fn short_steps() -> Vec<Refusal> {
    let mut refusals = sizes();
    for name in ["registers", "the expansion", "steps", "instructions", "control slots"] {
        refusals.push(Refusal("a short table", 13, shorter(name)));
        refusals.push(Refusal("13 before 15", 13, both(shorter(name), word("steps", 0, 0))));
        refusals.push(Refusal("13 before 16", 13, both(shorter(name), longer("settings"))));
        refusals.push(Refusal("the block before 13", 2, both(shorter(name), scalar(0, 0))));
        refusals.push(Refusal("13 with no budget", 13, both(shorter(name), scalar(BUDGET, 0))));
    }
    for count in [CONTROL, SAMPLE, INSTRUCTIONS, SLOTS, SPILLS] {
        refusals.push(Refusal("a count of 2^32-1", 13, scalar(count, u32::MAX)));
        refusals.push(Refusal("a count of 2^31", 13, scalar(count, 1 << 31)));
    }
    refusals.push(Refusal("one spill slot declared, none lent", 13, scalar(SPILLS, 1)));
    refusals.push(Refusal("counts that wrap", 13, both(scalar(CONTROL, 1 << 31), scalar(SAMPLE, 1 << 31))));
    refusals.push(Refusal("no registers", 13, Box::new(|question| slice(question, "registers").clear())));
    refusals
}

fn step(code: u32, register: u32, index: u32) -> [u32; 2] {
    [code * 16 + register, index]
}

const AUDIO: [u32; 2] = [16, 0];
const OUTPUT: [u32; 2] = [12 * 16, 0];

/// A list of steps in place of the call's own, with two control and two spill slots.
fn list(control: &[[u32; 2]], sample: &[[u32; 2]], instructions: &[[u32; 2]]) -> Change {
    let counts = [control.len() as u32, sample.len() as u32, instructions.len() as u32, 2, 2];
    let (steps, instructions) = ([control, sample].concat().concat(), instructions.concat());
    Box::new(move |question| {
        question.scalars[CONTROL..=SPILLS].copy_from_slice(&counts);
        *slice(question, "steps") = steps.clone();
        *slice(question, "instructions") = instructions.clone();
        *slice(question, "control slots") = lent(2);
        *slice(question, "spill slots") = lent(2);
    })
}

/// Lists that are not well formed, barred, or reach outside.
fn bad_lists() -> Vec<(&'static str, Change)> {
    let mut lists = Vec::new();
    let in_sample = |step: [u32; 2]| list(&[], &[AUDIO, step, OUTPUT], &[]);
    let in_control = |step: [u32; 2]| list(&[step], &[AUDIO, OUTPUT], &[]);
    for word in [0, 1, 14 * 16, 15 * 16 + 3, 16 * 16, u32::MAX] {
        lists.push(("no step's code", in_sample([word, 0])));
        lists.push(("no step's code", in_control([word, 0])));
    }
    for code in [1, 2, 12] {
        lists.push(("an index where there is none", in_sample(step(code, 0, 1))));
    }
    for (code, count) in [(3, 1), (4, 2), (5, 2), (6, 2), (8, 2), (9, 2), (10, 2), (11, 2)] {
        lists.push(("an index past its table", in_sample(step(code, 0, count))));
        lists.push(("an index past its table", in_sample(step(code, 0, u32::MAX))));
    }
    for (code, count) in [(3, 1), (6, 2), (13, 2)] {
        lists.push(("an index past its table", in_control(step(code, 0, count))));
    }
    for code in [1, 2, 4, 5, 8, 9, 10, 11, 12] {
        lists.push(("barred from control", in_control(step(code, 0, 0))));
    }
    lists.push(("barred from the sample", in_sample(step(13, 0, 0))));
    lists.push(("no sample steps", list(&[step(3, 0, 0)], &[], &[])));
    lists.push(("no steps", list(&[], &[], &[])));
    let computed = |words: [u32; 2]| list(&[], &[AUDIO, step(7, 0, 0), OUTPUT], &[words]);
    lists.push(("compute with a register", list(&[], &[AUDIO, step(7, 1, 0), OUTPUT], &[[0x2000, 0]])));
    lists.push(("compute past the instructions", list(&[], &[AUDIO, step(7, 0, 1), OUTPUT], &[[0x2000, 0]])));
    for code in [0, 10, 11, 15, 16, 0x100] {
        lists.push(("no instruction's code", computed([code * 4096, 0])));
        lists.push(("no instruction's code", list(&[step(7, 0, 0)], &[AUDIO, OUTPUT], &[[code * 4096, 0]])));
    }
    lists.push(("an immediate with lhs", computed([0x1010, 0])));
    lists.push(("an immediate with rhs", computed([0x1001, 0])));
    for code in [2, 3, 4, 5, 6, 7, 8, 9] {
        lists.push(("an operation with an immediate", computed([code * 4096, 1])));
    }
    for code in [7, 8] {
        lists.push(("a unary operation with rhs", computed([code * 4096 + 1, 0])));
    }
    lists
}

fn bad_steps() -> Vec<Refusal> {
    let nothing: fn() -> Change = || {
        Box::new(|question| {
            question.scalars[BUDGET] = 0;
            slice(question, "input").clear();
            slice(question, "output").clear();
        })
    };
    let plain = bad_lists().into_iter().map(|(name, list)| Refusal(name, 15, list));
    let empty = bad_lists().into_iter().map(|(name, list)| Refusal(name, 15, both(list, nothing())));
    let sizes = bad_lists().into_iter().map(|(name, list)| Refusal(name, 15, both(list, longer("settings"))));
    plain.chain(empty).chain(sizes).collect()
}

/// Lists that are accepted, and the output that they give.
fn odd_lists() -> Vec<(&'static str, Change, Vec<u32>)> {
    let network = step(2, 0, 0);
    let parameter = |register| step(3, register, 0);
    let output = |register| step(12, register, 0);
    let late = [&[0], &SAMPLES[..4]].concat();
    let malformed = [[0, 0], [0xffff_ffff, 7]];
    vec![
        ("a bad instruction that is not computed", list(&[], &[AUDIO, OUTPUT], &malformed), SAMPLES.to_vec()),
        ("an early output", list(&[], &[AUDIO, OUTPUT, parameter(0)], &[]), SAMPLES.to_vec()),
        ("two outputs", list(&[], &[AUDIO, OUTPUT, parameter(1), output(1)], &[]), vec![0x3f00_0000; 5]),
        ("no output", list(&[], &[AUDIO], &[]), vec![0x7fc0_0000; 5]),
        ("network with the flag clear", list(&[], &[network, OUTPUT], &[]), vec![0; 5]),
        ("registers from sample to sample", list(&[], &[OUTPUT, AUDIO], &[]), late.clone()),
        (
            "spill slots from sample to sample",
            list(&[], &[step(9, 3, 1), output(3), step(1, 15, 0), step(8, 15, 1)], &[]),
            late,
        ),
        (
            "registers from control to sample",
            list(&[step(7, 0, 0)], &[output(9)], &[[0x1900, 0x1234_5678]]),
            vec![0x1234_5678; 5],
        ),
        (
            "a control slot that no step filled",
            list(&[step(6, 4, 1), step(13, 4, 0)], &[step(6, 2, 0), output(2)], &[]),
            vec![0; 5],
        ),
    ]
}

fn ask_odd(ours: &mut Ours, good: &Question) -> Result<usize, String> {
    let lists = odd_lists();
    for (name, change, expected) in &lists {
        let mut question = good.clone();
        change(&mut question);
        for (budget, done) in [(u32::MAX, 5), (0, 0)] {
            question.scalars[BUDGET] = budget;
            let answer = ours.call(question.call());
            let spent = if done == 0 { 0 } else { question.scalars[CONTROL] + done * question.scalars[SAMPLE] };
            let output = if done == 0 { lent(5) } else { expected.clone() };
            if answer.result != 0 || answer.slices[7] != output || answer.slices[8] != [done, spent] {
                let [output, said] = [&answer.slices[7], &answer.slices[8]];
                return Err(format!("{name}: ours answers {}, output {output:x?}, answer words {said:x?}", answer.result));
            }
        }
    }
    Ok(2 * lists.len())
}

fn set() -> Vec<Refusal> {
    let index = |word| scalar(5, word);
    let value = |word| scalar(6, word);
    let mut refusals = vec![
        Refusal("a table a word short", 16, shorter("settings")),
        Refusal("a table a word long", 16, longer("settings")),
        Refusal("16 before 17", 16, both(longer("settings"), index(1))),
        Refusal("16 before 18", 16, both(longer("settings"), value(u32::MAX))),
        Refusal("the block before 16", 2, both(longer("settings"), scalar(0, 9))),
        Refusal("an index at the count", 17, index(1)),
        Refusal("an index of 2^32-1", 17, index(u32::MAX)),
        Refusal("17 before 18", 17, both(index(1), value(u32::MAX))),
    ];
    for word in [0x3f80_0001, 0x8000_0001, 0xbf80_0000, 0x7f80_0000, 0xff80_0000, 0x7fc0_0000, 0x7f80_0001, u32::MAX] {
        refusals.push(Refusal("a value outside", 18, value(word)));
    }
    refusals
}

fn reset() -> Vec<Refusal> {
    let mut refusals = vec![Refusal("the block before 16", 2, both(longer("cursors"), scalar(0, 9)))];
    for name in ["states held", "the delay area", "cursors"] {
        refusals.push(Refusal("a table a word short", 16, shorter(name)));
        refusals.push(Refusal("a table a word long", 16, longer(name)));
    }
    refusals
}

/// A good call is accepted, and each change refuses it as document 01 says.
pub fn compare(ours: &mut Ours) -> Result<String, String> {
    let calls: [(Play, Case, Vec<Refusal>); 8] = [
        (play(0), Case::Graph, graph()),
        (play(1), Case::Graph, network()),
        (play(0), Case::Steps(u16::MAX), short_steps()),
        (play(0), Case::Steps(u16::MAX), bad_steps()),
        (play(1), Case::Steps(u16::MAX), network()),
        (play(0), Case::Set { index: 0, value: 0x3f80_0000 }, set()),
        (play(0), Case::Set { index: 0, value: 0x8000_0000 }, vec![]),
        (play(0), Case::Reset, reset()),
    ];
    let mut count = 0;
    for (play, case, refusals) in calls {
        let good = case.question(&play).expect("the Rust takes this block");
        if let Some(difference) = good.difference(&ours.call(good.call())) {
            return Err(format!("the good call: {difference}"));
        }
        count += ask(ours, &good, &refusals)?;
    }
    let good = Case::Steps(u16::MAX).question(&play(0)).unwrap();
    let odd = ask_odd(ours, &good)?;
    Ok(format!("{count} refusals by name, {odd} calls of lists that are odd and accepted"))
}
