//! What the calls are timed on: a record with what they read beside it, and the buffers that they fill.
use crate::inputs::Make;

/// A record and what the calls read beside it.
#[derive(Default)]
pub struct Case {
    pub record: Vec<u8>,
    pub strict_ends: Vec<u16>,
    /// The same, each with a count: what the reader and the summary take.
    pub strict_pairs: Vec<u16>,
    /// How many entries its repetitions fill.
    pub run_entries: usize,
    /// The starts that are compared, in the range from 0 to `end`.
    pub starts: [usize; 2],
    pub end: usize,
    /// As many bytes as the record has, in records of 64 and of 256 bytes, and in one.
    pub batches: [Batch; 3],
}

/// Records one after another, and where each ends.
#[derive(Default)]
pub struct Batch {
    pub bytes: Vec<u8>,
    pub record_ends: Vec<u32>,
}

impl Batch {
    /// Records of the kind, `length` bytes each, all of them others where they are random.
    fn new(make: Make, n: usize, number: usize, length: usize) -> Batch {
        let bytes = (0..n / length).flat_map(|k| make(length, number + 64 * k)).collect();
        Batch { bytes, record_ends: (1..=n / length).map(|k| (k * length) as u32).collect() }
    }
}

impl Case {
    /// For all calls. The record is compared with its suffix that agrees longest with it.
    pub fn new(make: Make, n: usize, number: usize) -> Case {
        let record = make(n, number);
        let strict_ends = metsroeb::cfl_in(&record, &mut vec![0; n]).unwrap().to_vec();
        let agreement = |&start: &usize| metsroeb::compare_suffixes(&record, 0, n, 0, start).unwrap().common;
        let starts = [0, (1..n).rev().max_by_key(agreement).unwrap()];
        let run_entries = 3 * metsroeb_tests::peer::runs(&record, &mut vec![0; 3 * n]).unwrap().len();
        Case {
            batches: [64, 256, n].map(|length| Batch::new(make, n, number, length)),
            strict_pairs: strict_ends.iter().flat_map(|&end| [end, 1]).collect(),
            strict_ends,
            run_entries,
            starts,
            end: n,
            record,
        }
    }
}

/// What the calls fill, the same for all records of a length.
pub struct Buffers {
    pub work: Vec<u16>,
    pub pairs: Vec<u16>,
    pub result: Vec<u16>,
    pub breaks: Vec<u16>,
    pub runs: Vec<u16>,
}

impl Buffers {
    /// As large as a record of `n` bytes can need them.
    pub fn new(n: usize) -> Buffers {
        let entries = |each: usize| vec![0; each * n];
        Buffers { work: entries(3), pairs: entries(2), result: entries(1), breaks: entries(5), runs: entries(3) }
    }
}
