//! Why a call was refused.
use core::fmt::{self, Display, Formatter};
use core::num::NonZeroU8;

/// Why a call was refused: the number of the first line of the table that is met, which is paper 01's with those of the requests.
/// It prints the line's condition.
///
/// ```
/// use metsroeb::Refusal;
///
/// let refusal = metsroeb::cfl_in(b"", &mut [0; 9]).unwrap_err();
/// assert_eq!(refusal, Refusal::EMPTY_RECORD);
/// assert_eq!(refusal.number(), 1);
/// assert_eq!(refusal.to_string(), "refusal 1: the record has length 0");
/// ```
#[derive(Clone, Copy, Debug, PartialEq, Eq, Hash)]
pub struct Refusal(NonZeroU8);

/// The lines of the table, in the order in which they are tried.
impl Refusal {
    /// All calls: the record has length 0.
    pub const EMPTY_RECORD: Refusal = Refusal::line(1);
    /// All calls: the record is longer than [`MOST`](crate::MOST).
    pub const LONG_RECORD: Refusal = Refusal::line(2);
    /// Test, piece cut (also with its breaks, also of a batch): the work buffer has fewer entries than the record's length
    /// (test) or three times that (piece cut).
    pub const SHORT_WORK: Refusal = Refusal::line(3);
    /// All cuts, also of a batch, start table, repetitions: a result buffer, or what is left of it, has fewer entries than the
    /// answer; a factor of the piece cut has two, a break five, a repetition three.
    pub const SHORT_RESULT: Refusal = Refusal::line(4);
    /// Comparison: the range's first place is not below its end, or its end is above the record's length.
    pub const BAD_RANGE: Refusal = Refusal::line(5);
    /// Comparison: a start is below the range's first place, or not below its end.
    pub const BAD_START: Refusal = Refusal::line(6);
    /// Reader, summary: the paired list is empty or has an odd number of entries; its first end is 0, its ends do not rise
    /// strictly, or the last is not the record's length; or a count is 0 or above its factor's length.
    pub const BAD_PAIRS: Refusal = Refusal::line(7);
    /// Reader: the factor's number is not below the number of ends.
    pub const BAD_NUMBER: Refusal = Refusal::line(8);
    /// Test, after [`SHORT_WORK`](Refusal::SHORT_WORK): the record holds a mark, the byte 255.
    pub const MARKED_RECORD: Refusal = Refusal::line(9);
    /// Batch, before any of its records: the list of their ends is empty, has more than [`MOST_RECORDS`](crate::MOST_RECORDS),
    /// falls somewhere, or does not end with the bytes lent.
    pub const BAD_RECORD_ENDS: Refusal = Refusal::line(10);

    const fn line(number: u8) -> Refusal {
        match NonZeroU8::new(number) {
            Some(number) => Refusal(number),
            None => panic!("0 is no refusal"),
        }
    }

    /// What a function of [`raw`](crate::raw) returned: a result for 0, a refusal for any other number.
    ///
    /// ```
    /// # use metsroeb::Refusal;
    /// assert_eq!(Refusal::check(0), Ok(()));
    /// assert_eq!(Refusal::check(4), Err(Refusal::SHORT_RESULT));
    /// ```
    #[inline]
    pub const fn check(number: u8) -> Result<(), Refusal> {
        match NonZeroU8::new(number) {
            Some(number) => Err(Refusal(number)),
            None => Ok(()),
        }
    }

    /// The number of the line.
    #[inline]
    pub const fn number(self) -> u8 {
        self.0.get()
    }

    /// The condition of the line.
    pub const fn condition(self) -> &'static str {
        match self.number() {
            1 => "the record has length 0",
            2 => "the record has length above 4,096",
            3 => "the work buffer has fewer entries than 3 × length (piece cut) or than the length (test)",
            4 => "the result buffer has fewer entries than the answer has, two for each piece of the piece cut",
            5 => "the first place is not below the end, or the end is above the length",
            6 => "a start is below the first place, or not below the end",
            7 => {
                "the list of ends and counts is empty, has an odd number of entries, its first end is 0, its ends are not strictly \
                 rising, its last end is not the length, or a count is 0 or above its piece's length"
            }
            8 => "the piece number is not below the number of ends",
            9 => "the record holds a mark (test)",
            10 => "the list of record ends is empty, has more than 64 ends, falls somewhere, or does not end with the bytes lent",
            _ => "no line of the table that this crate knows",
        }
    }
}

impl Display for Refusal {
    fn fmt(&self, out: &mut Formatter) -> fmt::Result {
        write!(out, "refusal {}: {}", self.number(), self.condition())
    }
}

impl core::error::Error for Refusal {}
