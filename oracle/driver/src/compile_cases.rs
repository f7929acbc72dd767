//! Compiles by name: the kernels that document 01 prints, in its words; for each way to slip a small block on which the slip
//! shows; and the refusals.
use qcdsp::kernels::KernelTables;
use qcdsp::tables::Tables;

use crate::blocks::named_blocks;
use crate::compiles::{Case, Lent, Said, WRITTEN, rust_says};
use crate::lowering::{Lowered, Slip, lower};
use crate::ours::Ours;

/// Node names in the order of their codes.
const NODES: [&str; 18] = [
    "input",
    "constant",
    "parameter",
    "state",
    "delay",
    "add",
    "sub",
    "mul",
    "min",
    "max",
    "sub_bits",
    "div",
    "neg",
    "abs",
    "recip",
    "tanh",
    "sigmoid",
    "network",
];
/// Instruction names in the order of their codes, from 1.
const INSTRUCTIONS: [&str; 9] = ["imm", "add", "sub", "mul", "min", "max", "neg", "abs", "isub"];

/// A block by its nodes, the nodes that its states and delays take, and its output.
type Sketch = (&'static str, &'static [Option<u32>], &'static [Option<u32>], u32);

fn block((nodes, states, delays, output): Sketch) -> Tables {
    let node = |text: &str| {
        let mut words = text.split_whitespace();
        let code = words.next().and_then(|name| NODES.iter().position(|&of| of == name)).expect("a node's name") as u32;
        let mut word = || words.next().map_or(0, |word| number(word, code == 1));
        [code, word(), word()]
    };
    let nodes: Vec<[u32; 3]> = nodes.split(',').filter(|text| !text.trim().is_empty()).map(node).collect();
    let parameters = nodes.iter().filter(|node| node[0] == 2).map(|node| node[1] as usize + 1).max().unwrap_or(0);
    let update = |taken: &Option<u32>| taken.map_or(0, |node| node + 1);
    Tables {
        version: 2,
        category: 10,
        output,
        parameters: [0, 0x3f80_0000, 0x3f00_0000].repeat(parameters),
        states: states.iter().flat_map(|taken| [0x3f80_0000, update(taken)]).collect(),
        delays: delays.iter().flat_map(|taken| [3, update(taken)]).collect(),
        nodes: nodes.concat(),
        ..Tables::default()
    }
}

fn number(word: &str, is_float: bool) -> u32 {
    match is_float {
        true => word.parse::<f32>().expect("a constant").to_bits(),
        false => word.parse().expect("a number"),
    }
}

/// The words of a listing as document 01's lister prints it.
fn listed(listing: &str) -> Lowered {
    let mut lowered = Lowered { kernel: KernelTables::default(), registers: 0 };
    let KernelTables { counts, steps, instructions } = &mut lowered.kernel;
    let value = |word: &str| -> u32 { word.trim_start_matches('r').parse().expect("a number") };
    for line in listing.lines().map(str::trim).filter(|line| !line.is_empty()) {
        let words: Vec<&str> = line.split_whitespace().collect();
        match words[..] {
            ["control", count] => counts[0] = value(count),
            ["sample", count] => counts[1] = value(count),
            ["slots", control, spill] => (counts[3], counts[4]) = (value(control), value(spill)),
            ["registers", count] => lowered.registers = value(count),
            ["instructions", count] => counts[2] = value(count),
            ["load", "audio", register] => steps.extend([16 + value(register), 0]),
            ["store", "output", register] => steps.extend([12 * 16 + value(register), 0]),
            ["load" | "store", memory, index, register] => {
                let code = match (words[0], memory) {
                    ("load", "parameter") => 3,
                    ("load", "state") => 4,
                    ("load", "delay") => 5,
                    ("load", "control") => 6,
                    ("store", "state") => 10,
                    ("store", "delay") => 11,
                    _ => 13,
                };
                steps.extend([code * 16 + value(register), value(index)]);
            }
            ["compute", number, operation, ref registers @ ..] => {
                steps.extend([7 * 16, value(number)]);
                let code = 1 + INSTRUCTIONS.iter().position(|&of| of == operation).expect("an operation") as u32;
                let register = |at: usize| registers.get(at).map_or(0, |word| value(word));
                instructions.extend([code * 4096 + register(0) * 256 + register(1) * 16 + register(2), 0]);
            }
            _ => panic!("no line of a listing: {line}"),
        }
    }
    lowered
}

const SWAP: Sketch = ("input, state 0, state 1", &[Some(2), Some(1)], &[], 0);
const SQUARES: Sketch = ("input, parameter 0, add 0 1, mul 0 1, mul 2 3", &[], &[], 4);

/// What document 01 says of a kernel: its listing, how many steps it has, or the number that refuses it.
enum Printed {
    Listing(&'static str),
    Steps(u32),
    Refused(u32),
}

/// "Small kernels": A, C, C with mask 1, D with masks 3 and 7, E and I.
const PRINTED: [(&str, Sketch, u32, Printed); 7] = [
    (
        "A",
        ("input", &[], &[], 0),
        0xffff,
        Printed::Listing(
            "control 0
             sample 2
             load audio r0
             store output r0
             slots 0 0
             registers 1
             instructions 0",
        ),
    ),
    (
        "C",
        SWAP,
        0xffff,
        Printed::Listing(
            "control 0
             sample 6
             load state 1 r0
             load state 0 r1
             store state 0 r0
             store state 1 r1
             load audio r0
             store output r0
             slots 0 0
             registers 2
             instructions 0",
        ),
    ),
    ("C with mask 1", SWAP, 1, Printed::Refused(14)),
    ("D with mask 3", SQUARES, 3, Printed::Refused(14)),
    ("D with mask 7", SQUARES, 7, Printed::Steps(6)),
    (
        "E",
        ("parameter 0, neg 0, input, mul 2 1", &[], &[], 3),
        0xffff,
        Printed::Listing(
            "control 3
             load parameter 0 r0
             compute 0 neg r0 r0
             store control 0 r0
             sample 4
             load audio r0
             load control 0 r1
             compute 1 mul r0 r0 r1
             store output r0
             slots 1 0
             registers 2
             instructions 2",
        ),
    ),
    ("I", ("", &[], &[], 0), 0xffff, Printed::Refused(8)),
];

fn is_as_printed(said: &Said, printed: &Printed) -> bool {
    match (said, printed) {
        (Said::Compiled { lowered, .. }, Printed::Listing(listing)) => *lowered == listed(listing),
        (Said::Compiled { lowered, .. }, Printed::Steps(steps)) => {
            lowered.kernel.counts[..2].iter().sum::<u32>() == *steps
        }
        (Said::Locked { .. }, Printed::Refused(number)) => *number == 14,
        (Said::Refused { number: said, .. }, Printed::Refused(number)) => said == number,
        _ => false,
    }
}

/// For each slip a mask and a block on which it gives another list. Document 01's "Where porters slip" comes first.
const SLIPS: [(Slip, u32, Sketch); 28] = [
    (Slip::ReaderSeesNewValue, 3, ("state 0, input", &[Some(1)], &[], 0)),
    (Slip::EvictedByDistanceAlone, 3, ("input, neg 0, mul 0 0, min 1 0, sub_bits 3 2", &[], &[], 4)),
    (Slip::ConstantsMerged, 1, ("constant 0.5, constant 0.5", &[], &[Some(0)], 1)),
    (Slip::EvictedWithoutDistance, 3, ("input, neg 0, sub 1 1, mul 0 1, sub 2 3", &[], &[], 4)),
    (Slip::TieToLowestRegister, 3, ("delay 0, input, max 0 0, add 0 0, sub_bits 2 3", &[], &[Some(1)], 4)),
    (Slip::HighestFreeRegister, 3, ("input", &[], &[], 0)),
    (
        Slip::FirstFreedSlotFirst,
        3,
        ("state 0, sub_bits 0 0, add 0 0, sub_bits 0 0, mul 2 1, mul 3 0", &[Some(4)], &[], 5),
    ),
    (Slip::SlotsNeverAgain, 3, ("input, neg 0, abs 0, sub 0 1, mul 0 2, sub 3 4", &[], &[], 5)),
    (Slip::HoistedSlotFreed, 3, ("parameter 0, sub_bits 0 0, neg 0, add 0 0, max 0 2", &[Some(1)], &[Some(3)], 4)),
    (
        Slip::SecondOperandsSlotFreedFirst,
        3,
        ("state 0, sub_bits 0 0, add 0 0, sub_bits 0 0, mul 2 1, mul 3 0", &[Some(4)], &[], 5),
    ),
    (Slip::SecondOperandLends, 3, ("input, parameter 0, sub 1 0", &[], &[], 2)),
    (Slip::NoOperandLends, 3, ("input, abs 0", &[], &[], 1)),
    (Slip::OperandsLockedAtOnce, 3, ("input, neg 0, mul 0 0, min 1 0, sub_bits 3 2", &[], &[], 4)),
    (Slip::OwnReadPassed, 3, ("input, sub 0 0, mul 1 1, mul 0 2, add 1 3", &[], &[], 4)),
    (Slip::LockedRegisterTaken, 3, ("input, min 0 0, min 0 0, sub_bits 2 1", &[], &[Some(3)], 0)),
    (Slip::StoredBeforeOldIsKept, 3, ("state 0, input", &[Some(1)], &[], 0)),
    (Slip::OldKeptBeforeValue, 3, ("state 0, input", &[Some(1)], &[], 0)),
    (Slip::LoadsNotShared, 3, ("input, input, sub_bits 0 1", &[], &[], 2)),
    (Slip::HoistedSpilledAgain, 3, ("constant 0.5, abs 0, min 1 1, mul 0 1, sub_bits 2 3", &[Some(1)], &[], 4)),
    (Slip::DeadNodesComputed, 3, ("input, sub 0 0", &[], &[], 0)),
    (Slip::HoistedThroughHoisted, 3, ("parameter 0, sub 0 0, sub 0 1", &[], &[], 2)),
    (Slip::ConstantsNotHoisted, 1, ("constant 0.5, neg 0", &[], &[], 1)),
    (Slip::SlotsLastNodeFirst, 3, ("constant 0.5, sub_bits 0 0, sub 0 0", &[Some(1)], &[], 2)),
    (Slip::DelaysBeforeStates, 1, ("input", &[Some(0)], &[Some(0)], 0)),
    (Slip::OldReadsOfFirstNode, 3, ("delay 0, delay 0, sub 1 1", &[], &[Some(1)], 2)),
    (Slip::WrittenAfterItsValue, 3, ("delay 0, add 0 0", &[], &[Some(0)], 1)),
    (Slip::WritesAtTheEnd, 3, ("input, abs 0", &[Some(0)], &[], 1)),
    (Slip::OutputAfterItsValue, 3, ("input, mul 0 0, neg 0", &[], &[Some(2)], 1)),
];

fn case(sketch: Sketch, mask: u32) -> Case {
    Case { block: block(sketch), mask, lent: Lent::EXACT }
}

/// Kernel C's block.
pub fn swap() -> Tables {
    block(SWAP)
}

pub fn printed_cases() -> Vec<Case> {
    PRINTED.iter().map(|&(_, sketch, mask, _)| case(sketch, mask)).collect()
}

/// All ways to slip.
pub fn slips() -> Vec<Slip> {
    SLIPS.iter().map(|&(slip, ..)| slip).collect()
}

pub fn slip_cases() -> Vec<Case> {
    SLIPS.iter().map(|&(_, mask, sketch)| case(sketch, mask)).collect()
}

fn ask(ours: &mut Ours, name: &str, case: &Case, said: &Said) -> Result<(), String> {
    let question = case.question(said);
    match question.difference(&ours.call(question.call())) {
        Some(difference) => Err(format!("{name}: {difference}\n{case}")),
        None => Ok(()),
    }
}

fn ask_printed(ours: &mut Ours) -> Result<usize, String> {
    for ((name, _, _, printed), case) in PRINTED.iter().zip(printed_cases()) {
        let said = rust_says(&case.block, case.mask);
        if !is_as_printed(&said, printed) {
            return Err(format!("{name}: the Rust does not give what document 01 prints\n{case}"));
        }
        ask(ours, name, &case, &said)?;
    }
    Ok(PRINTED.len())
}

fn ask_slips(ours: &mut Ours) -> Result<usize, String> {
    for ((slip, mask, _), case) in SLIPS.into_iter().zip(slip_cases()) {
        let name = format!("{slip:?}");
        let said = rust_says(&case.block, mask);
        let Said::Compiled { expanded, lowered } = &said else {
            return Err(format!("{name}: the Rust does not compile it\n{case}"));
        };
        if lower(expanded, mask as u16, None).0.as_ref() != Some(lowered) {
            return Err(format!("{name}: the driver's own lowering is not the Rust's\n{case}"));
        }
        match lower(expanded, mask as u16, Some(slip)).0 {
            Some(slipped) if slipped.kernel != lowered.kernel => {}
            _ => return Err(format!("{name}: the slip gives no other list\n{case}")),
        }
        ask(ours, &name, &case, &said)?;
    }
    Ok(SLIPS.len())
}

/// A name, a block, a mask, lent tables, and the number.
type Refusal = (String, Tables, u32, Lent, u32);

/// 13 of each table alone, before 14 and behind the block's own answers; 14 of masks without a register; the blocks that
/// document 01 names.
fn refusals() -> Vec<Refusal> {
    let swap = swap();
    let faulty = Tables { version: 4, ..swap.clone() };
    let mut refusals = Vec::new();
    for (at, table) in WRITTEN.into_iter().enumerate() {
        let mut lent = Lent { spare: [7; 4], ..Lent::EXACT };
        lent.spare[at] = -1;
        for (mask, number) in [(0xffff, 13), (0, 13), (1, 13)] {
            refusals.push((format!("{table} a word short"), swap.clone(), mask, lent, number));
        }
        refusals.push((format!("{table} a word short, version 4"), faulty.clone(), 0xffff, lent, 2));
    }
    for (mask, number) in [(0, 14), (0xffff_0000, 14), (0xffff_0001, 14), (0x0001_0003, 0)] {
        refusals.push((format!("mask {mask:x}"), swap.clone(), mask, Lent::EXACT, number));
    }
    for answer in [0, 1, 2, 5, 7] {
        let lent = Lent { answer, ..Lent::EXACT };
        refusals.push((format!("{answer} answer words"), swap.clone(), 3, lent, 0));
        refusals.push((format!("{answer} answer words"), swap.clone(), 1, lent, 14));
        refusals.push((format!("{answer} answer words"), faulty.clone(), 3, lent, 2));
    }
    for (number, block) in named_blocks() {
        refusals.push(("a block of document 01".into(), block, 0xffff, Lent::EXACT, number));
    }
    refusals
}

fn ask_refusals(ours: &mut Ours) -> Result<usize, String> {
    let refusals = refusals();
    for (name, block, mask, lent, number) in &refusals {
        let case = Case { block: block.clone(), mask: *mask, lent: *lent };
        let said = rust_says(block, *mask);
        let expected = case.question(&said).number;
        if expected != *number {
            return Err(format!("{name}: {expected}, not {number}"));
        }
        ask(ours, name, &case, &said)?;
    }
    Ok(refusals.len())
}

pub fn compare(ours: &mut Ours) -> Result<String, String> {
    let (printed, slips, refusals) = (ask_printed(ours)?, ask_slips(ours)?, ask_refusals(ours)?);
    Ok(format!(
        "compiles: {printed} kernels as document 01 prints them; {slips} slips that would give another list; {refusals} tables, masks and blocks by name"
    ))
}
