//! Answers that are more than a number or a slice.
use super::{raw, Refusal};
use core::cmp::Ordering;
use core::marker::PhantomData;
use core::slice;

/// What [`find_extension`](crate::find_extension) finds.
#[derive(Clone, Copy, Debug, PartialEq, Eq)]
pub enum Extension {
    /// The record is inverse Lyndon: it is greater than each of its nonempty proper suffixes.
    InverseLyndon,
    /// It is not.
    Failing {
        /// L, the length of the shortest prefix that is not inverse Lyndon.
        failing: usize,
        /// |p| = L − |r| − 1.
        prefix: usize,
        /// |r|, for the shortest r with which that prefix is r a u r b, a < b.
        border: usize,
    },
}

/// A factor of the piece cut, as [`icfl`](crate::icfl) writes it, or of any other paired list.
#[derive(Clone, Copy, Debug, PartialEq, Eq)]
pub struct Factor {
    /// Its end.
    pub end: u16,
    /// How many anti-Lyndon factors are inside, those of the strict cut.
    pub anti_lyndon: u16,
}

/// The two entries of a factor, as [`metsroeb_icfl`](crate::raw::metsroeb_icfl) writes them.
impl From<[u16; 2]> for Factor {
    #[inline]
    fn from([end, anti_lyndon]: [u16; 2]) -> Factor {
        Factor { end, anti_lyndon }
    }
}

/// A break that the piece cut considered. Of the stretch from `begun` on, the shortest prefix that is not inverse Lyndon is
/// r a u r b, a < b, with the shortest r; p is that prefix without its last |r| + 1 letters. A record without marks is one stretch.
#[derive(Clone, Copy, Debug, PartialEq, Eq)]
pub struct Break {
    /// Where p ends.
    pub place: u16,
    /// Where the step began: at the break before it in its stretch, the first one where the stretch begins.
    pub begun: u16,
    /// |r|.
    pub border: u16,
    /// What became of it.
    pub fate: Fate,
}

/// What became of a break: by the first factor of the cut of what follows it in its stretch.
#[derive(Clone, Copy, Debug, PartialEq, Eq)]
pub enum Fate {
    /// That factor is longer than |r|: a factor ends here. The letters a, at `begun` + |r|, and b, at `place` + |r|.
    Kept(u8, u8),
    /// It is not, and was joined to p: |r| less its length.
    Joined(u16),
}

/// The five entries of a break, as [`metsroeb_icfl_breaks`](crate::raw::metsroeb_icfl_breaks) writes them.
impl From<[u16; 5]> for Break {
    #[inline]
    fn from([place, begun, border, fourth, fifth]: [u16; 5]) -> Break {
        let fate = match fourth {
            256 => Fate::Joined(fifth),
            _ => Fate::Kept(fourth as u8, fifth as u8),
        };
        Break { place, begun, border, fate }
    }
}

/// A maximal repetition: a part of a stretch that has the period, and with a byte more on either side would not have it. A record
/// without marks is one stretch.
#[derive(Clone, Copy, Debug, PartialEq, Eq)]
pub struct Run {
    /// Its first place.
    pub first: u16,
    /// Its end.
    pub end: u16,
    /// Its smallest period, which fits in it at least twice.
    pub period: u16,
}

/// The three entries of a repetition, as [`metsroeb_runs`](crate::raw::metsroeb_runs) writes them.
impl From<[u16; 3]> for Run {
    #[inline]
    fn from([first, end, period]: [u16; 3]) -> Run {
        Run { first, end, period }
    }
}

/// Answers that fill `N` entries each, read one after another from the entries that a call filled.
#[derive(Clone, Debug)]
pub struct Entries<'a, T, const N: usize> {
    left: slice::Iter<'a, [u16; N]>,
    answers: PhantomData<T>,
}

/// The factors of a paired list, from left to right: of one that [`icfl`](crate::icfl) gives, or of any other.
pub type Factors<'a> = Entries<'a, Factor, 2>;

/// The breaks of a record, from left to right, as [`icfl_with_breaks`](crate::icfl_with_breaks) gives them.
pub type Breaks<'a> = Entries<'a, Break, 5>;

/// The maximal repetitions of a record, by first place and then by period, as [`runs`](crate::runs) gives them.
pub type Runs<'a> = Entries<'a, Run, 3>;

impl<'a, T, const N: usize> Entries<'a, T, N> {
    /// The answers in these entries. Fewer than `N` at their end are none.
    #[inline]
    pub fn read(entries: &'a [u16]) -> Entries<'a, T, N> {
        Entries { left: entries.as_chunks().0.iter(), answers: PhantomData }
    }
}

impl<T: From<[u16; N]>, const N: usize> Iterator for Entries<'_, T, N> {
    type Item = T;

    #[inline]
    fn next(&mut self) -> Option<T> {
        self.left.next().map(|&entries| entries.into())
    }

    #[inline]
    fn size_hint(&self) -> (usize, Option<usize>) {
        self.left.size_hint()
    }
}

impl<T: From<[u16; N]>, const N: usize> ExactSizeIterator for Entries<'_, T, N> {}

/// What the piece cut answers for each record of a batch, in their order, as [`icfl_batch`](crate::icfl_batch) finds it.
#[derive(Clone, Debug)]
pub struct Batch<'a> {
    answer: raw::Batch,
    records: usize,
    pairs: &'a [u16],
}

impl<'a> Batch<'a> {
    /// What [`metsroeb_icfl_batch`](crate::raw::metsroeb_icfl_batch) returned for so many records, with the result buffer that it
    /// filled.
    #[inline]
    pub fn read(answer: raw::Batch, records: usize, pairs: &'a [u16]) -> Result<Batch<'a>, Refusal> {
        Refusal::check(answer.refusal)?;
        Ok(Batch { answer, records, pairs })
    }

    /// How many records the batch has.
    #[inline]
    #[allow(clippy::len_without_is_empty)] // it has at least one
    pub fn len(&self) -> usize {
        self.records
    }

    /// What was answered for record `number`, from 0; none where the batch has no such record.
    #[inline]
    pub fn get(&self, number: usize) -> Option<Result<&'a [u16], Refusal>> {
        self.iter().nth(number)
    }

    /// For each record the pairs of its factors, as [`icfl`](crate::icfl) gives them, or its refusal.
    #[inline]
    pub fn iter(&self) -> impl ExactSizeIterator<Item = Result<&'a [u16], Refusal>> + '_ {
        let mut left = self.pairs;
        self.answer.replies.iter().take(self.records).map(move |reply| {
            let (pairs, rest) = left.split_at(2 * usize::from(reply.count));
            left = rest;
            Refusal::check(reply.refusal).map(|()| pairs)
        })
    }
}

/// How the words from two starts compare, as [`compare_suffixes`](crate::compare_suffixes) finds it.
#[derive(Clone, Copy, Debug, PartialEq, Eq)]
pub struct Comparison {
    /// `Less` if the first start's word comes first in the inverse order, `Equal` if the starts are equal, `Greater` otherwise.
    pub order: Ordering,
    /// How many leading bytes of the two words are equal: at most as many as the shorter one has.
    pub common: u16,
}

/// What the factors that a paired list marks come to.
#[derive(Clone, Copy, Debug, PartialEq, Eq)]
pub struct Summary {
    /// Number of factors.
    pub count: u16,
    /// Greatest length of a factor.
    pub longest: u16,
    /// First place of the latest factor of that length.
    pub from: u16,
    /// `bands[k]`: number of factors whose length has k + 1 binary digits.
    pub bands: [u16; 13],
}
