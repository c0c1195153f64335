//! The peer: the library's algorithms in plain Rust behind the header's signatures, and the crate's own safe functions over
//! these. So both sides of a comparison or of a benchmark pass the same boundary.
#[path = "../../rust/src/calls.rs"]
mod calls;
mod compare; // two words compared, eight bytes at a time
mod lists; // reader and summary
mod plain; // test, cuts, start table
pub mod raw;
mod runs; // the repetitions

pub use calls::*;
use metsroeb::{Batch, Breaks, Comparison, Extension, Refusal, Runs, Summary};
