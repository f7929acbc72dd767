//! A kernel as document 01's word tables.
use qc_asm::{Instruction, Register};

use crate::codegen::{InputSource, Kernel, Step};

/// Step table (control, then sample), instruction table and the five counts, in the layout of document 01.
#[derive(Debug, Clone, Default, PartialEq, Eq)]
pub struct KernelTables {
    /// Control steps, sample steps, instructions, control slots, spill slots.
    pub counts: [u32; 5],
    pub steps: Vec<u32>,
    pub instructions: Vec<u32>,
}

impl KernelTables {
    pub fn of(kernel: &Kernel) -> Self {
        let contract = &kernel.contract;
        let instructions = kernel.program.instructions();
        Self {
            counts: [
                contract.control.len() as u32,
                contract.sample.len() as u32,
                instructions.len() as u32,
                contract.control_slots,
                contract.spill_slots,
            ],
            steps: contract.control.iter().chain(&contract.sample).flat_map(step_words).collect(),
            instructions: instructions.iter().flat_map(instruction_words).collect(),
        }
    }
}

fn step_words(step: &Step) -> [u32; 2] {
    let words = |code: u32, register: u8, index: u32| [code * 16 + u32::from(register), index];
    match *step {
        Step::Load { source, register } => match source {
            InputSource::Audio => words(1, register, 0),
            InputSource::Network => words(2, register, 0),
            InputSource::Parameter { index } => words(3, register, index as u32),
            InputSource::State { index } => words(4, register, index as u32),
            InputSource::Delay { index } => words(5, register, index as u32),
            InputSource::Control { slot } => words(6, register, slot),
        },
        Step::Compute { instruction } => words(7, 0, instruction as u32),
        Step::Spill { slot, register } => words(8, register, slot),
        Step::Reload { slot, register } => words(9, register, slot),
        Step::StoreState { state, register } => words(10, register, state as u32),
        Step::StoreDelay { delay, register } => words(11, register, delay as u32),
        Step::StoreOutput { register } => words(12, register, 0),
        Step::StoreControl { slot, register } => words(13, register, slot),
    }
}

fn instruction_words(instruction: &Instruction) -> [u32; 2] {
    let number = |register: Register| u32::from(register.index());
    let binary = |code: u32, dst, lhs, rhs| [code * 4096 + number(dst) * 256 + number(lhs) * 16 + number(rhs), 0];
    let unary = |code: u32, dst, src| [code * 4096 + number(dst) * 256 + number(src) * 16, 0];
    match *instruction {
        Instruction::LoadImmediate { dst, value } => [4096 + number(dst) * 256, value],
        Instruction::FloatAdd { dst, lhs, rhs } => binary(2, dst, lhs, rhs),
        Instruction::FloatSub { dst, lhs, rhs } => binary(3, dst, lhs, rhs),
        Instruction::FloatMul { dst, lhs, rhs } => binary(4, dst, lhs, rhs),
        Instruction::FloatMin { dst, lhs, rhs } => binary(5, dst, lhs, rhs),
        Instruction::FloatMax { dst, lhs, rhs } => binary(6, dst, lhs, rhs),
        Instruction::FloatNeg { dst, src } => unary(7, dst, src),
        Instruction::FloatAbs { dst, src } => unary(8, dst, src),
        Instruction::IntegerSub { dst, lhs, rhs } => binary(9, dst, lhs, rhs),
        _ => unreachable!("lowering emits no other instruction"),
    }
}
