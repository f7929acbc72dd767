//! The three published files of qcdsp, as they stand, in a crate of ours: its error type and its network module were
//! not published, so small ones stand in for them. `tables` builds blocks from our word
//! tables, `kernels` writes kernels as words, `peek` reads and writes the memories of a `Processor`.
#[path = "../../../../shared/docs/src/crates/qcdsp/src/codegen.rs"]
pub mod codegen;
#[path = "../../../../shared/docs/src/crates/qcdsp/src/graph.rs"]
mod graph;
/// host.rs, and beside it what looks into its `Processor`, whose fields are its own.
mod host {
    include!("../../../../shared/docs/src/crates/qcdsp/src/host.rs");
    pub mod peek;
}
pub mod kernels;
mod network;
pub mod tables;

pub use graph::*;
pub use host::Processor;
pub use host::peek::{Machine, Memories};
pub use network::Network;

#[derive(Debug, thiserror::Error)]
pub enum Error {
    #[error("{0}")]
    Invalid(String),
    #[error("a signal of another graph")]
    ForeignSignal,
    #[error("no parameter {0}")]
    UnknownParameter(usize),
    #[error("parameter {name} is outside {min}..{max}")]
    ParameterRange { name: String, min: f32, max: f32 },
    #[error("too few registers")]
    RegisterPressure,
    #[error(transparent)]
    Json(#[from] serde_json::Error),
    #[error(transparent)]
    Assembly(#[from] qc_asm::Error),
}

pub type Result<T> = std::result::Result<T, Error>;
