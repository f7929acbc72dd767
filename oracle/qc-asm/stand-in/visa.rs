//! Stands in for qc-asm's `visa` module, which was not published: the names that lib.rs hands on, and nothing behind
//! them. No file that is compared uses one of them.
macro_rules! names {
    ($($name:ident)*) => { $(pub struct $name;)* };
}
names! {
    AluOp Compute Condition DataAccess Direction FloatMulAlu IndexRegister LoopCount LoopMode MemoryAccess
    ModifyRegister UniversalRegister Update VisaError VisaInstruction VisaProgram
}
pub const LEAF_RETURN_PARCELS: usize = 0;
pub const MODE1_BDCST1: u32 = 0;
pub const MODE1_BDCST9: u32 = 0;
pub const MODE1_PEYEN: u32 = 0;
