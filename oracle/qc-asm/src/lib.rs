//! qc-asm as published, through the links that `build.rs` makes.
include!(concat!(env!("OUT_DIR"), "/glue.rs"));
