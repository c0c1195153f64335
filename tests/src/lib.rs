//! The calls, and what they are compared with.
pub mod agree; // one call against the promise: answer, every entry of every buffer
pub mod lent; // buffers with guard entries
pub mod peer; // the library's algorithms in plain Rust, behind the same boundary
pub mod promise; // refusals and buffers, by paper 01's table
pub mod reference; // answers, by paper 01's definitions
pub mod side; // the sides that are compared, with the calls as their methods
pub mod words; // words of many kinds, from a seed

pub use side::{Side, BOTH, PEER, VERIFIED};
