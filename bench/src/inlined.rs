//! The crate's files, compiled together with the loops, so that the compiler can inline and hoist what it will.

#[path = "../../compare/mf4-rs/src/lib.rs"]
mod mf4_rs;
pub use mf4_rs::{blocks, error, index, parsing};

use parsing::decoder::decode_f64_from_record as double;

#[path = "original.rs"]
mod original;
pub use original::*;
