//! The exported functions as `include/metsroeb.h` declares them: numbers in and out, 0 for a result or the number of the
//! refusal. [`Refusal::check`](crate::Refusal::check) turns that number into a `Result`.
//!
//! # Safety
//!
//! For every function: every pointer is valid and not null, also where its length is 0, and aligned; every length is true;
//! what can be written overlaps no other argument. Nothing else is asked.

/// `metsroeb_summary`: what the factors that a paired list marks come to. Beside a refusal all else is 0.
#[repr(C)]
#[derive(Clone, Copy, Debug, PartialEq, Eq)]
pub struct Summary {
    /// 0, or the number of the refusal.
    pub refusal: u8,
    /// Number of factors.
    pub count: u16,
    /// Greatest length of a factor.
    pub longest: u16,
    /// First place of the latest factor of that length.
    pub from: u16,
    /// `bands[k]`: number of factors whose length has k + 1 binary digits.
    pub bands: [u16; 13],
}

/// `metsroeb_reply`: what the piece cut answers for a record of a batch.
#[repr(C)]
#[derive(Clone, Copy, Debug, PartialEq, Eq)]
pub struct Reply {
    /// 0, or the number of the refusal.
    pub refusal: u8,
    /// Number of factors, 0 beside a refusal.
    pub count: u16,
}

/// `metsroeb_batch`: a reply for each record of a batch, in their order. Places past the last record, and all of them beside a
/// refusal of the batch, hold a result of 0.
#[repr(C)]
#[derive(Clone, Copy, Debug, PartialEq, Eq)]
pub struct Batch {
    /// 0, or the number of the refusal of the whole batch.
    pub refusal: u8,
    /// The replies.
    pub replies: [Reply; 64],
}

/// The table of the calls, a row for each: the header's function, and `as` which call of the crate it stands behind, with what that is
/// lent and what it answers (`'a`: what the answer is a part of). `signatures!(with)` hands all rows to the macro `with`: the
/// declarations below are made so, and in the tests the peer's functions and the calls of a side. `tools/signatures` compares the rows
/// with the header, with the exported functions in Rattle and with the calls.
#[doc(hidden)]
#[macro_export]
macro_rules! signatures {
    ($with:ident) => {
        $with! {
            /// The test: see [`find_extension`](crate::find_extension). An inverse Lyndon record has 0 in all three numbers.
            pub fn metsroeb_test(
                record: *const u8,
                record_len: usize,
                work: *mut u16,
                work_len: usize,
                failing: *mut u16,
                prefix: *mut u16,
                border: *mut u16,
            ) -> u8
            as find_extension(record: &[u8], work: &mut [u16]) -> Extension;

            /// The piece cut: see [`icfl`](crate::icfl). [`Factors::read`](crate::Factors::read) reads the entries of the factors,
            /// two for each.
            pub fn metsroeb_icfl(
                record: *const u8,
                record_len: usize,
                work: *mut u16,
                work_len: usize,
                pairs: *mut u16,
                pairs_len: usize,
                count: *mut u16,
            ) -> u8
            as icfl(record: &[u8], work: &mut [u16], pairs: &'a mut [u16]) -> &'a [u16];

            /// The piece cut with its breaks: see [`icfl_with_breaks`](crate::icfl_with_breaks).
            /// [`Breaks::read`](crate::Breaks::read) reads the entries of the breaks, five for each.
            pub fn metsroeb_icfl_breaks(
                record: *const u8,
                record_len: usize,
                work: *mut u16,
                work_len: usize,
                pairs: *mut u16,
                pairs_len: usize,
                breaks: *mut u16,
                breaks_len: usize,
                count: *mut u16,
                break_count: *mut u16,
            ) -> u8
            as icfl_with_breaks(
                record: &[u8],
                work: &mut [u16],
                pairs: &'a mut [u16],
                breaks: &'a mut [u16],
            ) -> (&'a [u16], Breaks<'a>);

            /// The piece cut of a batch of records: see [`icfl_batch`](crate::icfl_batch). [`Batch::read`](crate::Batch::read)
            /// reads the replies beside the entries of `pairs`.
            pub fn metsroeb_icfl_batch(
                bytes: *const u8,
                bytes_len: usize,
                record_ends: *const u32,
                record_ends_len: usize,
                work: *mut u16,
                work_len: usize,
                pairs: *mut u16,
                pairs_len: usize,
            ) -> Batch
            as icfl_batch(bytes: &[u8], record_ends: &[u32], work: &mut [u16], pairs: &'a mut [u16]) -> Batch<'a>;

            /// The strict cut: see [`cfl_in`](crate::cfl_in).
            pub fn metsroeb_cfl_in(record: *const u8, record_len: usize, ends: *mut u16, ends_len: usize, count: *mut u16) -> u8
            as cfl_in(record: &[u8], ends: &'a mut [u16]) -> &'a [u16];

            /// The start table: see [`lyndon_table`](crate::lyndon_table).
            pub fn metsroeb_lyndon_table(
                record: *const u8,
                record_len: usize,
                lengths: *mut u16,
                lengths_len: usize,
                count: *mut u16,
            ) -> u8
            as lyndon_table(record: &[u8], lengths: &'a mut [u16]) -> &'a [u16];

            /// The maximal repetitions: see [`runs`](crate::runs). [`Runs::read`](crate::Runs::read) reads their entries, three for
            /// each.
            pub fn metsroeb_runs(record: *const u8, record_len: usize, runs: *mut u16, runs_len: usize, count: *mut u16) -> u8
            as runs(record: &[u8], runs: &'a mut [u16]) -> Runs<'a>;

            /// The comparison: see [`compare_suffixes`](crate::compare_suffixes). The sign is -1, 0 or 1; `common` is the number of
            /// equal leading bytes.
            pub fn metsroeb_compare(
                record: *const u8,
                record_len: usize,
                first: usize,
                end: usize,
                start: usize,
                other: usize,
                sign: *mut i8,
                common: *mut u16,
            ) -> u8
            as compare_suffixes(record: &[u8], first: usize, end: usize, start: usize, other: usize) -> Comparison;

            /// The reader: see [`factor_at`](crate::factor_at). The factor's first place and its end.
            pub fn metsroeb_factor(
                record: *const u8,
                record_len: usize,
                pairs: *const u16,
                pairs_len: usize,
                number: usize,
                first: *mut u16,
                end: *mut u16,
            ) -> u8
            as factor_at(record: &'a [u8], pairs: &[u16], number: usize) -> &'a [u8];

            /// The summary: see [`summarize`](crate::summarize).
            pub fn metsroeb_summarize(record: *const u8, record_len: usize, pairs: *const u16, pairs_len: usize) -> Summary
            as summarize(record: &[u8], pairs: &[u16]) -> Summary;
        }
    };
}

macro_rules! declarations {
    ($($(#[$about:meta])* pub fn $function:ident($($arguments:tt)*) -> $told:ty as $call:ident($($lent:tt)*) -> $answer:ty;)*) => {
        extern "C" {
            $($(#[$about])* pub fn $function($($arguments)*) -> $told;)*
        }
    };
}

signatures!(declarations);
