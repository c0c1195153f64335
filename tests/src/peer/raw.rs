//! The header's functions over the peer's algorithms, with the signatures of the crate's table. The caller keeps the header's terms.
#![allow(clippy::missing_safety_doc, clippy::too_many_arguments)]
pub use metsroeb::raw::{Batch, Reply, Summary};
use std::slice::{from_raw_parts, from_raw_parts_mut};

/// An algorithm for each call, by the call's name: it takes slices, and gives the header's numbers or the refusal's, or a struct with both.
mod algorithms {
    pub use super::super::compare::compare_suffixes;
    pub use super::super::lists::{factor_at, summarize};
    pub use super::super::plain::{cfl_in, find_extension, icfl, icfl_batch, icfl_with_breaks, lyndon_table};
    pub use super::super::runs::runs;
}

/// Turns one argument after another into what the algorithm is lent, and what it tells.
macro_rules! over_algorithm {
    // a slice, to be read or written
    ($of:tt [$($lent:expr,)*] [] $part:ident: *const $entry:ty, $len:ident: usize, $($left:tt)*) => {
        over_algorithm!($of [$($lent,)* from_raw_parts($part, $len),] [] $($left)*)
    };
    ($of:tt [$($lent:expr,)*] [] $part:ident: *mut $entry:ty, $len:ident: usize, $($left:tt)*) => {
        over_algorithm!($of [$($lent,)* from_raw_parts_mut($part, $len),] [] $($left)*)
    };
    // a number
    ($of:tt [$($lent:expr,)*] [] $number:ident: usize, $($left:tt)*) => {
        over_algorithm!($of [$($lent,)* $number,] [] $($left)*)
    };
    // a number that is told
    ($of:tt $lent:tt [$($told:ident)*] $number:ident: *mut $type:ty, $($left:tt)*) => {
        over_algorithm!($of $lent [$($told)* $number] $($left)*)
    };
    // all are told beside the refusal, 0 if there is one
    ((u8 $call:ident) [$($lent:expr,)*] [$($told:ident)+] $(,)?) => {{
        let answer = algorithms::$call($($lent),*);
        ($(*$told,)*) = answer.unwrap_or_default();
        answer.err().unwrap_or(0)
    }};
    (($struct:ident $call:ident) [$($lent:expr,)*] [] $(,)?) => {
        algorithms::$call($($lent),*)
    };
}

macro_rules! functions {
    ($($(#[$about:meta])* pub fn $function:ident($($arguments:tt)*) -> $told:ident as $call:ident($($lent:tt)*) -> $answer:ty;)*) => {
        $(#[inline(never)]
        pub unsafe extern "C" fn $function($($arguments)*) -> $told {
            over_algorithm!(($told $call) [] [] $($arguments)*,)
        })*
    };
}

metsroeb::signatures!(functions);
