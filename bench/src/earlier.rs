//! The calls of an earlier commit: its crate, over its archive. `bench/run --against` puts its tree there and gives its
//! exported functions other names. Files and imports are those that its `calls.rs` asks for.
#[path = "../../target/earlier/rust/src/answers.rs"]
mod answers;
#[path = "../../target/earlier/rust/src/calls.rs"]
mod calls;
#[path = "../../target/earlier/rust/src/raw.rs"]
mod raw;
#[path = "../../target/earlier/rust/src/refusal.rs"]
mod refusal;

use answers::*;
pub use calls::*;
use refusal::Refusal;
