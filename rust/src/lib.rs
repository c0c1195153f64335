//! Metsroeb cuts a record into pieces at places that its bytes alone decide: the canonical inverse Lyndon factorization
//! (ICFL) of a word. The calls are proved (see the repository's README); this crate lends them slices and gives their
//! answers as Rust values. It needs no heap, no standard library, and no other crate.
//!
//! A record is a word of 1 to [`MOST`] bytes. The byte 255 is a mark: a factor of every cut by itself, with 1 in the start table, and
//! in no repetition. Each nonempty stretch between neighbouring marks or the record's edges is cut as a record by itself, and has the
//! repetitions that it has by itself. [`compare_suffixes`] takes 255 for the largest letter, [`find_extension`] refuses it; all other
//! values are ordinary letters. Places count from 0; an end is the place just past the last byte. A paired list has two entries
//! for each factor, its end and a count; [`Factors::read`] reads it. No call has a precondition: it gives a result or a
//! [`Refusal`], and never panics.
//!
//! ```
//! fn main() -> Result<(), metsroeb::Refusal> {
//!     let record = b"cbabacbac";
//!     let (mut work, mut pairs) = ([0; 3 * 9], [0; 2 * 9]);
//!     let pairs = metsroeb::icfl(record, &mut work, &mut pairs)?;
//!     assert_eq!(pairs, [5, 1, 9, 2]);
//!     assert_eq!(metsroeb::factor_at(record, pairs, 1)?, b"cbac");
//!     Ok(())
//! }
//! ```
//!
//! Buffers are lent as they are: their content before a call does not matter. A refusal leaves every buffer as it was, but
//! for the work buffer of [`icfl`], alone or for a record of [`icfl_batch`], and of [`icfl_with_breaks`] after
//! [`Refusal::SHORT_RESULT`]; entries past those that a call is said to write stay as they were.
#![no_std]
#![warn(missing_docs)]

mod answers;
mod calls;
pub mod raw;
mod refusal;

pub use answers::{Batch, Break, Breaks, Comparison, Entries, Extension, Factor, Factors, Fate, Run, Runs, Summary};
pub use calls::{
    cfl_in, compare_suffixes, factor_at, find_extension, icfl, icfl_batch, icfl_with_breaks, lyndon_table, runs, summarize,
};
pub use refusal::Refusal;

/// The most bytes of a record.
pub const MOST: usize = 4096;

/// The most records of a batch.
pub const MOST_RECORDS: usize = 64;
