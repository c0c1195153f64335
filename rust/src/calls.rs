//! The calls, over the functions of `raw`. The `unsafe` blocks are sound since slices, and references to local numbers, are
//! what the header asks of pointers and lengths: a slice's pointer is valid, aligned and not null, also where it is empty,
//! and what is lent to be written overlaps nothing else.
//!
//! The tests compile this file a second time over a `raw` of their own, so it takes its names from the module above it.
use super::{raw, Batch, Breaks, Comparison, Extension, Refusal, Runs, Summary};

/// The test: whether the record is inverse Lyndon, and if not, where and how it fails.
///
/// `work` needs as many entries as the record has bytes; after a result these are 0. A record that holds a mark, the byte 255, is
/// refused.
///
/// Refusals: [`EMPTY_RECORD`](Refusal::EMPTY_RECORD), [`LONG_RECORD`](Refusal::LONG_RECORD),
/// [`SHORT_WORK`](Refusal::SHORT_WORK), [`MARKED_RECORD`](Refusal::MARKED_RECORD).
///
/// ```
/// use metsroeb::{find_extension, Extension, Refusal};
///
/// let mut work = [0; 9];
/// let found = Extension::Failing { failing: 9, prefix: 5, border: 3 };
/// assert_eq!(find_extension(b"cbabacbac", &mut work), Ok(found));
/// assert_eq!(find_extension(b"baba", &mut work), Ok(Extension::InverseLyndon));
/// assert_eq!(find_extension(b"cbabacbac", &mut work[1..]), Err(Refusal::SHORT_WORK));
/// assert_eq!(find_extension(b"ba\xffba", &mut work), Err(Refusal::MARKED_RECORD));
/// ```
#[inline]
pub fn find_extension(record: &[u8], work: &mut [u16]) -> Result<Extension, Refusal> {
    let (mut failing, mut prefix, mut border) = (0, 0, 0);
    Refusal::check(unsafe {
        raw::metsroeb_test(record.as_ptr(), record.len(), work.as_mut_ptr(), work.len(), &mut failing, &mut prefix, &mut border)
    })?;
    Ok(match failing {
        0 => Extension::InverseLyndon,
        _ => Extension::Failing { failing: failing.into(), prefix: prefix.into(), border: border.into() },
    })
}

/// The piece cut, ICFL: the pairs of the factors, which are the part of `pairs` that was filled, from its first entry on. Each
/// [`Factor`](crate::Factor) fills two entries: its end, and how many anti-Lyndon factors are inside, those of [`cfl_in`]. A
/// mark, the byte 255, is a factor of its own, with count 1; each nonempty stretch between marks is cut as a record by itself.
///
/// Twice as many entries of `pairs` as the record has bytes are always enough. `work` needs three for each byte; after a result,
/// and after [`SHORT_RESULT`](Refusal::SHORT_RESULT), these are 0.
///
/// Refusals: [`EMPTY_RECORD`](Refusal::EMPTY_RECORD), [`LONG_RECORD`](Refusal::LONG_RECORD),
/// [`SHORT_WORK`](Refusal::SHORT_WORK), [`SHORT_RESULT`](Refusal::SHORT_RESULT).
///
/// ```
/// use metsroeb::{icfl, Factor, Factors, Refusal};
///
/// let (mut work, mut pairs) = ([0; 27], [0; 4]);
/// let found = icfl(b"cbabacbac", &mut work, &mut pairs)?;
/// assert_eq!(found, [5, 1, 9, 2]);
/// assert!(Factors::read(found).eq([Factor { end: 5, anti_lyndon: 1 }, Factor { end: 9, anti_lyndon: 2 }]));
/// assert_eq!(icfl(b"cbabacbac", &mut work, &mut pairs[..3]), Err(Refusal::SHORT_RESULT));
/// assert_eq!(icfl(b"ba\xffba", &mut work, &mut [0; 10])?, [2, 1, 3, 1, 5, 1]);
/// # Ok::<(), Refusal>(())
/// ```
#[inline]
pub fn icfl<'a>(record: &[u8], work: &mut [u16], pairs: &'a mut [u16]) -> Result<&'a [u16], Refusal> {
    let mut count = 0;
    Refusal::check(unsafe {
        raw::metsroeb_icfl(
            record.as_ptr(),
            record.len(),
            work.as_mut_ptr(),
            work.len(),
            pairs.as_mut_ptr(),
            pairs.len(),
            &mut count,
        )
    })?;
    Ok(&pairs[..2 * usize::from(count)])
}

/// The piece cut with its breaks: the pairs of the factors, as [`icfl`] gives them, and every [`Break`](crate::Break) that the cut
/// considered, stretch by stretch from left to right, in the record's places. Marks and the last factors of stretches end
/// without a break: the ends are theirs, and the places of the breaks that were kept.
///
/// A break fills five entries of `breaks`. Five times as many as the record has bytes are always enough, and an inverse Lyndon
/// record, which has no break, needs none. `pairs` and `work` are as for [`icfl`]; after
/// [`SHORT_RESULT`](Refusal::SHORT_RESULT), of either, `pairs` and `breaks` are as they were.
///
/// Refusals: [`EMPTY_RECORD`](Refusal::EMPTY_RECORD), [`LONG_RECORD`](Refusal::LONG_RECORD),
/// [`SHORT_WORK`](Refusal::SHORT_WORK), [`SHORT_RESULT`](Refusal::SHORT_RESULT).
///
/// ```
/// use metsroeb::{icfl_with_breaks, Break, Fate, Refusal};
///
/// let record = b"cbabacaacbabacbac";
/// let (mut work, mut pairs, mut breaks) = ([0; 3 * 17], [0; 2 * 17], [0; 5 * 17]);
/// let (pairs, breaks) = icfl_with_breaks(record, &mut work, &mut pairs, &mut breaks)?;
/// assert_eq!(pairs, [13, 2, 17, 2]);
/// assert!(breaks.eq([
///     Break { place: 8, begun: 0, border: 6, fate: Fate::Joined(1) },
///     Break { place: 13, begun: 8, border: 3, fate: Fate::Kept(b'b', b'c') },
/// ]));
/// assert_eq!(icfl_with_breaks(record, &mut work, &mut [0; 4], &mut [0; 9]).err(), Some(Refusal::SHORT_RESULT));
/// # Ok::<(), Refusal>(())
/// ```
#[inline]
pub fn icfl_with_breaks<'a>(
    record: &[u8],
    work: &mut [u16],
    pairs: &'a mut [u16],
    breaks: &'a mut [u16],
) -> Result<(&'a [u16], Breaks<'a>), Refusal> {
    let (mut count, mut break_count) = (0, 0);
    Refusal::check(unsafe {
        raw::metsroeb_icfl_breaks(
            record.as_ptr(),
            record.len(),
            work.as_mut_ptr(),
            work.len(),
            pairs.as_mut_ptr(),
            pairs.len(),
            breaks.as_mut_ptr(),
            breaks.len(),
            &mut count,
            &mut break_count,
        )
    })?;
    Ok((&pairs[..2 * usize::from(count)], Breaks::read(&breaks[..5 * usize::from(break_count)])))
}

/// The piece cut of a batch of up to [`MOST_RECORDS`](crate::MOST_RECORDS) records, which stand in `bytes` one after another;
/// `record_ends` has the end of each one there. Two equal neighbours, or a first end of 0, mean an empty record.
///
/// Each record is cut as by [`icfl`], with all of `work` and with what is left of `pairs`, and is answered as there; a refused
/// record uses no entry of `pairs`, and the next one is still tried. The ends of a record are counted from its own first byte.
/// Twice as many entries of `pairs` as there are bytes are always enough. `work` needs three times the bytes of the longest record;
/// afterwards its first entries are 0, three for each byte of the longest record that was cut or refused by
/// [`SHORT_RESULT`](Refusal::SHORT_RESULT).
///
/// Refusals of the batch: [`BAD_RECORD_ENDS`](Refusal::BAD_RECORD_ENDS), before any record. Of a record in it:
/// [`EMPTY_RECORD`](Refusal::EMPTY_RECORD), [`LONG_RECORD`](Refusal::LONG_RECORD), [`SHORT_WORK`](Refusal::SHORT_WORK),
/// [`SHORT_RESULT`](Refusal::SHORT_RESULT).
///
/// ```
/// use metsroeb::{icfl_batch, Factors, Refusal};
///
/// let (mut work, mut pairs) = ([0; 27], [0; 6]);
/// // cbabacbac, an empty record, abc, ba
/// let batch = icfl_batch(b"cbabacbacabcba", &[9, 9, 12, 14], &mut work, &mut pairs)?;
/// assert_eq!(batch.len(), 4);
/// assert_eq!(batch.get(0), Some(Ok(&[5, 1, 9, 2][..])));
/// assert_eq!(batch.get(1), Some(Err(Refusal::EMPTY_RECORD)));
/// assert_eq!(batch.get(2), Some(Err(Refusal::SHORT_RESULT))); // three factors, and two entries are left
/// assert_eq!(batch.get(3), Some(Ok(&[2, 1][..])));
/// assert_eq!(batch.iter().flatten().flat_map(Factors::read).count(), 3);
/// assert_eq!(pairs, [5, 1, 9, 2, 2, 1]);
/// assert_eq!(icfl_batch(b"cbabacbac", &[5, 4, 9], &mut work, &mut pairs).err(), Some(Refusal::BAD_RECORD_ENDS));
/// # Ok::<(), Refusal>(())
/// ```
#[inline]
pub fn icfl_batch<'a>(bytes: &[u8], record_ends: &[u32], work: &mut [u16], pairs: &'a mut [u16]) -> Result<Batch<'a>, Refusal> {
    let answer = unsafe {
        raw::metsroeb_icfl_batch(
            bytes.as_ptr(),
            bytes.len(),
            record_ends.as_ptr(),
            record_ends.len(),
            work.as_mut_ptr(),
            work.len(),
            pairs.as_mut_ptr(),
            pairs.len(),
        )
    };
    Batch::read(answer, record_ends.len(), pairs)
}

/// The strict cut, the Lyndon factorization in the inverse order: the ends of its factors, which are anti-Lyndon words. They
/// are the part of `ends` that was filled, from its first entry on. As many entries as the record has bytes are always
/// enough. A mark, the byte 255, is a factor of its own; each nonempty stretch between marks is cut as a record by itself.
///
/// Refusals: [`EMPTY_RECORD`](Refusal::EMPTY_RECORD), [`LONG_RECORD`](Refusal::LONG_RECORD),
/// [`SHORT_RESULT`](Refusal::SHORT_RESULT).
///
/// ```
/// let mut ends = [0; 9];
/// assert_eq!(metsroeb::cfl_in(b"cbabacbac", &mut ends)?, [5, 8, 9]);
/// assert_eq!(metsroeb::cfl_in(b"\xff\xffa", &mut ends)?, [1, 2, 3]);
/// # Ok::<(), metsroeb::Refusal>(())
/// ```
#[inline]
pub fn cfl_in<'a>(record: &[u8], ends: &'a mut [u16]) -> Result<&'a [u16], Refusal> {
    let mut count = 0;
    Refusal::check(unsafe { raw::metsroeb_cfl_in(record.as_ptr(), record.len(), ends.as_mut_ptr(), ends.len(), &mut count) })?;
    Ok(&ends[..usize::from(count)])
}

/// The start table: for each place of the record the length of the longest anti-Lyndon word that starts there. It is the part
/// of `lengths` that was filled, as many entries as the record has bytes, from the first entry on. A mark, the byte 255, has 1, and
/// such a word of another place ends before the next mark.
///
/// Refusals: [`EMPTY_RECORD`](Refusal::EMPTY_RECORD), [`LONG_RECORD`](Refusal::LONG_RECORD),
/// [`SHORT_RESULT`](Refusal::SHORT_RESULT).
///
/// ```
/// let mut lengths = [0; 9];
/// assert_eq!(metsroeb::lyndon_table(b"cbabacbac", &mut lengths)?, [5, 2, 1, 2, 1, 3, 2, 1, 1]);
/// assert_eq!(metsroeb::lyndon_table(b"ba\xffba", &mut lengths)?, [2, 1, 1, 2, 1]);
/// # Ok::<(), metsroeb::Refusal>(())
/// ```
#[inline]
pub fn lyndon_table<'a>(record: &[u8], lengths: &'a mut [u16]) -> Result<&'a [u16], Refusal> {
    let mut count = 0;
    Refusal::check(unsafe {
        raw::metsroeb_lyndon_table(record.as_ptr(), record.len(), lengths.as_mut_ptr(), lengths.len(), &mut count)
    })?;
    Ok(&lengths[..usize::from(count)])
}

/// The maximal repetitions: every [`Run`](crate::Run) of the record, by first place and then by period. A mark, the byte 255, is in
/// none of them and ends its neighbours.
///
/// A repetition fills three entries of `runs`. A record has fewer of them than bytes, so three times as many entries as it has bytes
/// are always enough; a record without any needs none. The call keeps 8 KiB of its own on the stack.
///
/// Refusals: [`EMPTY_RECORD`](Refusal::EMPTY_RECORD), [`LONG_RECORD`](Refusal::LONG_RECORD),
/// [`SHORT_RESULT`](Refusal::SHORT_RESULT).
///
/// ```
/// use metsroeb::{runs, Refusal, Run};
///
/// let mut entries = [0; 12];
/// let found = runs(b"aabaabaa", &mut entries)?;
/// assert_eq!(found.len(), 4);
/// assert!(found.eq([
///     Run { first: 0, end: 2, period: 1 },
///     Run { first: 0, end: 8, period: 3 },
///     Run { first: 3, end: 5, period: 1 },
///     Run { first: 6, end: 8, period: 1 },
/// ]));
/// assert_eq!(runs(b"aabaabaa", &mut entries[..11]).err(), Some(Refusal::SHORT_RESULT));
/// assert!(runs(b"abab\xffab", &mut entries)?.eq([Run { first: 0, end: 4, period: 2 }]));
/// assert_eq!(runs(b"abc", &mut [])?.len(), 0);
/// # Ok::<(), Refusal>(())
/// ```
#[inline]
pub fn runs<'a>(record: &[u8], runs: &'a mut [u16]) -> Result<Runs<'a>, Refusal> {
    let mut count = 0;
    Refusal::check(unsafe { raw::metsroeb_runs(record.as_ptr(), record.len(), runs.as_mut_ptr(), runs.len(), &mut count) })?;
    Ok(Runs::read(&runs[..3 * usize::from(count)]))
}

/// The comparison, in the inverse order, of the words from `start` to `end` and from `other` to `end`: `Less` if the one at
/// `start` comes first, `Equal` if the starts are equal, `Greater` otherwise. Beside this order it gives how many leading bytes of
/// the two words are equal, for equal starts `end` − `start`.
///
/// In this order a proper prefix comes first, and at a first difference the larger byte; 255 is the largest. The range is `first` to
/// `end`, of any part of the record.
///
/// Refusals: [`EMPTY_RECORD`](Refusal::EMPTY_RECORD), [`LONG_RECORD`](Refusal::LONG_RECORD),
/// [`BAD_RANGE`](Refusal::BAD_RANGE), [`BAD_START`](Refusal::BAD_START).
///
/// ```
/// use metsroeb::{compare_suffixes, Comparison};
/// use std::cmp::Ordering;
///
/// let found = Comparison { order: Ordering::Greater, common: 3 }; // cbabacbac and cbac: b stands against c
/// assert_eq!(compare_suffixes(b"cbabacbac", 0, 9, 0, 5)?, found);
/// let found = Comparison { order: Ordering::Equal, common: 4 };
/// assert_eq!(compare_suffixes(b"cbabacbac", 0, 9, 5, 5)?, found);
///
/// // bbabba and bba in the range, bbabbabbb and bbabbb to the record's end.
/// assert_eq!(compare_suffixes(b"bbabbabbb", 0, 6, 0, 3)?.common, 3);
/// assert_eq!(compare_suffixes(b"bbabbabbb", 0, 9, 0, 3)?.common, 5);
///
/// // The order in a range may be another one than to the record's end.
/// assert_eq!(compare_suffixes(b"bba", 0, 2, 0, 1)?.order, Ordering::Greater);
/// assert_eq!(compare_suffixes(b"bba", 0, 3, 0, 1)?.order, Ordering::Less);
/// # Ok::<(), metsroeb::Refusal>(())
/// ```
#[inline]
pub fn compare_suffixes(record: &[u8], first: usize, end: usize, start: usize, other: usize) -> Result<Comparison, Refusal> {
    let (mut sign, mut common) = (0, 0);
    Refusal::check(unsafe {
        raw::metsroeb_compare(record.as_ptr(), record.len(), first, end, start, other, &mut sign, &mut common)
    })?;
    Ok(Comparison { order: sign.cmp(&0), common })
}

/// The reader: factor `number`, from 0, of those that the paired list marks. It is a part of the record itself, not a copy.
/// The list need not be the piece cut, and its counts need not be those of the strict cut.
///
/// Refusals: [`EMPTY_RECORD`](Refusal::EMPTY_RECORD), [`LONG_RECORD`](Refusal::LONG_RECORD),
/// [`BAD_PAIRS`](Refusal::BAD_PAIRS), [`BAD_NUMBER`](Refusal::BAD_NUMBER).
///
/// ```
/// use metsroeb::{factor_at, Factors, Refusal};
///
/// let (record, pairs) = (b"cbabacbac", [5, 1, 9, 2]);
/// assert_eq!(factor_at(record, &pairs, 1), Ok(&b"cbac"[..]));
/// assert_eq!(factor_at(record, &pairs, Factors::read(&pairs).len()), Err(Refusal::BAD_NUMBER));
/// assert_eq!(factor_at(record, &[5, 9], 1), Err(Refusal::BAD_PAIRS)); // ends without counts
/// ```
#[inline]
pub fn factor_at<'a>(record: &'a [u8], pairs: &[u16], number: usize) -> Result<&'a [u8], Refusal> {
    let (mut first, mut end) = (0, 0);
    Refusal::check(unsafe {
        raw::metsroeb_factor(record.as_ptr(), record.len(), pairs.as_ptr(), pairs.len(), number, &mut first, &mut end)
    })?;
    Ok(&record[usize::from(first)..usize::from(end)])
}

/// The summary of the factors that the paired list marks. The list need not be the piece cut, and its counts need not be those
/// of the strict cut. Of equally long factors the latest is named.
///
/// Refusals: [`EMPTY_RECORD`](Refusal::EMPTY_RECORD), [`LONG_RECORD`](Refusal::LONG_RECORD),
/// [`BAD_PAIRS`](Refusal::BAD_PAIRS).
///
/// ```
/// let summary = metsroeb::summarize(b"cbabacbac", &[5, 1, 9, 2])?;
/// assert_eq!((summary.count, summary.longest, summary.from), (2, 5, 0));
/// assert_eq!(summary.bands, [0, 0, 2, 0, 0, 0, 0, 0, 0, 0, 0, 0, 0]); // both lengths, 5 and 4, have three binary digits
/// let summary = metsroeb::summarize(b"cbabacbac", &[4, 1, 8, 1, 9, 1])?;
/// assert_eq!((summary.longest, summary.from), (4, 4));
/// # Ok::<(), metsroeb::Refusal>(())
/// ```
#[inline]
pub fn summarize(record: &[u8], pairs: &[u16]) -> Result<Summary, Refusal> {
    let raw::Summary { refusal, count, longest, from, bands } =
        unsafe { raw::metsroeb_summarize(record.as_ptr(), record.len(), pairs.as_ptr(), pairs.len()) };
    Refusal::check(refusal)?;
    Ok(Summary { count, longest, from, bands })
}
