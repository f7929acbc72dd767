//! Each clause of "What the step checker passes" by name: one good list, and changes of it with the position that document
//! 01 gives; then the tables of 13.
use qcdsp::kernels::KernelTables;
use qcdsp::tables::Tables;

use crate::checks::Checked;
use crate::ours::Ours;
use crate::playing::{self, Play};
use crate::runs::expanded;

type Step = [u32; 2];

fn step(code: u32, register: u32, index: u32) -> Step {
    [code * 16 + register, index]
}

const MUL: Step = [4 * 4096 + 2 * 256 + 1, 0];
const ADD: Step = [2 * 4096 + 4 * 256 + 2 * 16 + 3, 0];
const NEG: Step = [7 * 4096 + 256, 0];
const IMMEDIATE: Step = [4096 + 5 * 256, 0x3f00_0000];

/// Input, parameter 0, its neg, a state that takes the sum, one that takes nothing, a delay that takes the product, a delay
/// that takes nothing, a constant. Node 9 is of node 3's class.
fn play() -> Play {
    let block = Tables {
        version: 1,
        category: 10,
        channels: 0,
        network: 0,
        output: 5,
        parameters: vec![0, 0x3f80_0000, 0x3f00_0000, 0, 0x3f80_0000, 0x3f00_0000],
        states: vec![0x3f00_0000, 6, 0x3f80_0000, 0],
        delays: vec![2, 5, 3, 0],
        nodes: [
            [0, 0, 0],
            [2, 0, 0],
            [3, 0, 0],
            [12, 1, 0],
            [7, 0, 3],
            [5, 4, 2],
            [1, 0x3f00_0000, 0],
            [2, 0, 0],
            [4, 0, 0],
            [12, 7, 0],
        ]
        .concat(),
    };
    Play {
        settings: vec![0x3f00_0000; 2],
        memories: playing::start(&block),
        input: vec![0x3f80_0000, 0xbf00_0000],
        network: vec![],
        spare: 0,
        extra: 0,
        block,
    }
}

/// A list by its steps, which passes as it is.
#[derive(Clone)]
struct List {
    control: Vec<Step>,
    sample: Vec<Step>,
    instructions: Vec<Step>,
    slots: u32,
    spills: u32,
    mask: u32,
}

fn good() -> List {
    List {
        control: vec![step(3, 0, 0), step(7, 0, 0), step(13, 1, 1)],
        sample: vec![
            step(1, 0, 0),
            step(6, 1, 1),
            step(7, 0, 1),
            step(4, 3, 0),
            step(7, 0, 2),
            step(8, 4, 0),
            step(11, 2, 0),
            step(9, 4, 0),
            step(10, 4, 0),
            step(12, 4, 0),
        ],
        instructions: vec![NEG, MUL, ADD, IMMEDIATE],
        slots: 2,
        spills: 1,
        mask: 0x1f,
    }
}

/// A name, where it is refused (control steps 0 to 2, sample steps 3 to 12, the end), and the change.
type Case = (&'static str, Option<u64>, fn(&mut List));

const CASES: [Case; 40] = [
    ("the good list", None, |_| {}),
    ("high bits of the mask", None, |list| list.mask |= 0xffff_0000),
    ("no code", Some(0), |list| list.control[0] = step(0, 0, 0)),
    ("code 14", Some(3), |list| list.sample[0] = step(14, 0, 0)),
    ("audio in control", Some(0), |list| list.control[0] = step(1, 0, 0)),
    ("a state in control", Some(0), |list| list.control[0] = step(4, 0, 0)),
    ("spill in control", Some(2), |list| list.control[2] = step(8, 1, 0)),
    ("output in control", Some(2), |list| list.control[2] = step(12, 1, 0)),
    ("control store in the sample", Some(8), |list| list.sample[5] = step(13, 4, 0)),
    ("audio with an index", Some(3), |list| list.sample[0] = step(1, 0, 1)),
    ("compute with a register", Some(5), |list| list.sample[2] = step(7, 1, 1)),
    ("compute past the instructions", Some(5), |list| list.sample[2] = step(7, 0, 4)),
    ("a malformed instruction", Some(5), |list| list.instructions[1] = [MUL[0], 1]),
    ("a malformed instruction that no step computes", None, |list| list.instructions[3] = [0, 0]),
    ("a load outside the mask", Some(3), |list| list.sample[0] = step(1, 5, 0)),
    ("a destination outside the mask", Some(5), |list| list.instructions[1] = [MUL[0] + 3 * 256, 0]),
    ("an operand outside the mask", Some(5), |list| list.instructions[1] = [MUL[0] + 5, 0]),
    ("a store outside the mask", Some(12), |list| list.sample[9] = step(12, 5, 0)),
    ("a parameter past the table", Some(0), |list| list.control[0] = step(3, 0, 2)),
    ("a parameter that is no node's", Some(0), |list| list.control[0] = step(3, 0, 1)),
    ("a state that is no node's", Some(6), |list| list.sample[3] = step(4, 3, 1)),
    ("a delay that is some node's", None, |list| list.sample.insert(0, step(5, 3, 0))),
    ("a delay that is no node's", Some(3), |list| list.sample.insert(0, step(5, 3, 1))),
    ("network, no node", Some(3), |list| list.sample.insert(0, step(2, 3, 0))),
    ("a control slot past the count", Some(2), |list| list.slots = 1),
    ("a control slot that is not filled", Some(4), |list| list.sample[1] = step(6, 1, 0)),
    ("a spill slot past the count", Some(8), |list| list.spills = 0),
    ("a reload before its spill", Some(8), |list| list.sample.swap(5, 7)),
    ("a register that control filled", Some(5), |list| list.sample[1] = step(1, 3, 0)),
    ("a spill of an empty register", Some(3), |list| list.sample[0] = step(8, 2, 0)),
    ("no node's constant", Some(5), |list| list.instructions[1] = [4096 + 2 * 256, 1]),
    ("no node's product", Some(5), |list| list.instructions[1] = [4 * 4096 + 2 * 256, 0]),
    ("operands in another order", Some(5), |list| list.instructions[1] = [4 * 4096 + 2 * 256 + 16, 0]),
    ("another class stored", Some(11), |list| list.sample[8] = step(10, 2, 0)),
    ("a state stored twice", Some(12), |list| list.sample.insert(9, step(10, 4, 0))),
    ("a state loaded after its store", Some(12), |list| list.sample.insert(9, step(4, 3, 0))),
    ("a state without update stored", Some(12), |list| list.sample.insert(9, step(10, 4, 1))),
    ("a delay not stored", Some(12), |list| {
        list.sample.remove(6);
    }),
    ("an output that is not last", Some(11), |list| list.sample.swap(8, 9)),
    ("another class as output", Some(12), |list| list.sample[9] = step(12, 2, 0)),
];

/// Cases whose list has other lengths than the good one.
fn shorter_lists() -> Vec<(&'static str, Option<u64>, List)> {
    let mut no_output = good();
    no_output.sample.pop();
    let mut twice = good();
    twice.sample.push(step(12, 4, 0));
    let mut empty = good();
    empty.sample.clear();
    let mut nothing = empty.clone();
    nothing.control.clear();
    let mut no_state = good();
    no_state.sample.remove(8);
    vec![
        ("no output", Some(12), no_output),
        ("two outputs", Some(12), twice),
        ("no sample steps", Some(3), empty),
        ("no steps", Some(0), nothing),
        ("a state not stored", Some(12), no_state),
    ]
}

fn checked(list: &List) -> Checked {
    let List { control, sample, instructions, slots, spills, mask } = list;
    let play = play();
    Checked {
        expanded: expanded(&play).expect("the Rust takes this block"),
        play,
        mask: *mask,
        kernel: KernelTables {
            counts: [control.len() as u32, sample.len() as u32, instructions.len() as u32, *slots, *spills],
            steps: [&control[..], &sample[..]].concat().concat(),
            instructions: instructions.concat(),
        },
    }
}

fn ask(ours: &mut Ours, name: &str, position: Option<u64>, list: &List) -> Result<(), String> {
    let question = checked(list).question();
    let expected = position.map_or(0, |_| 19);
    let said = (question.number != 0).then(|| u64::from(question.left[2].1[0]));
    if question.number != expected || said != position {
        return Err(format!("{name}: the checker written from the text says {said:?}, not {position:?}"));
    }
    match question.difference(&ours.call(question.call())) {
        Some(difference) => Err(format!("{name}: {difference}")),
        None => Ok(()),
    }
}

/// 13 and the block's answers: no table changes.
fn ask_short(ours: &mut Ours) -> Result<usize, String> {
    const MASK: usize = 5;
    let mut asked = 0;
    for table in ["steps", "instructions", "the expansion", "work"] {
        for (number, version) in [(13, 1), (2, 4)] {
            let mut question = checked(&good()).question();
            question.scalars[0] = version;
            question.scalars[MASK] = 0;
            question.slices.iter_mut().find(|slice| slice.0 == table).unwrap().1.pop();
            question.number = number;
            question.left = question.slices[question.slices.len() - 3..].to_vec();
            question.left[2].1[0] = 0;
            if let Some(difference) = question.difference(&ours.call(question.call())) {
                return Err(format!("{table} a word short: {difference}"));
            }
            asked += 1;
        }
    }
    for count in 6..11 {
        let mut question = checked(&good()).question();
        question.scalars[count] = u32::MAX;
        question.number = 13;
        question.left = question.slices[question.slices.len() - 3..].to_vec();
        question.left[2].1[0] = 0;
        if let Some(difference) = question.difference(&ours.call(question.call())) {
            return Err(format!("a count of 2^32-1: {difference}"));
        }
        asked += 1;
    }
    Ok(asked)
}

pub fn compare(ours: &mut Ours) -> Result<usize, String> {
    for (name, position, change) in CASES {
        let mut list = good();
        change(&mut list);
        ask(ours, name, position, &list)?;
    }
    let lists = shorter_lists();
    for (name, position, list) in &lists {
        ask(ours, name, *position, list)?;
    }
    Ok(CASES.len() + lists.len() + ask_short(ours)?)
}
