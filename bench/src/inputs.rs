//! The records that are timed.
use crate::cases::Case;
use metsroeb_tests::words::{fibonacci_word, Random};

/// Makes a record from a length and its number.
pub type Make = fn(usize, usize) -> Vec<u8>;

/// A kind of record: its name, how many different records of it take turns, and what makes one.
pub type Input = (&'static str, usize, Make);

/// Random records take turns, so that no branch predictor knows them by heart. Marks are in those records alone that name them; an
/// earlier archive that has no marks is not timed on these, since it does other work there.
pub const INPUTS: &[Input] = &[
    ("random, 2 letters", 64, |n, k| random(n, k, 2)),
    ("random, 255 letters", 64, |n, k| random(n, k, 255)),
    ("a^n", 1, |n, _| vec![b'a'; n]),
    ("(ba)^(n/2)", 1, |n, _| b"ba".repeat(n / 2)),
    ("Fibonacci", 1, |n, _| fibonacci_word(b'b', b'a', n)),
    ("c^k a c^k b", 1, |n, _| {
        let mut word = vec![b'c'; n];
        word[n / 2 - 1] = b'a';
        word[n - 1] = b'b';
        word
    }),
    ("falling ramp", 1, |n, _| (0..n).map(|i| (254 - i * 255 / n) as u8).collect()),
    ("rising plateaus", 1, |n, _| (0..n).map(|i| (i * 64 / n) as u8).collect()),
    ("a^(n-1) b", 1, |n, _| {
        let mut word = vec![b'a'; n];
        word[n - 1] = b'b';
        word
    }),
    #[cfg(has = "marks")]
    ("marks", 1, |n, _| vec![255; n]),
    #[cfg(has = "marks")]
    ("a and a mark in turn", 1, |n, _| b"a\xff".repeat(n / 2)),
    #[cfg(has = "marks")]
    ("random, 2 letters, a mark in the middle", 64, |n, k| {
        let mut word = random(n, k, 2);
        word[n / 2] = 255;
        word
    }),
];

/// What the repetitions are timed on besides.
pub const RUN_INPUTS: &[Input] = &[
    ("(dc)^k c (dc)^k", 1, |n, _| powers(b"dc", n / 4, n)),
    ("(dc)^k c (dc)^k c (dc)^(k/6)", 1, |n, _| powers(b"dc", n * 3 / 13, n)),
];

/// How many records of a kind take turns where a call takes a tenth of a millisecond.
pub const MOST_LONG: usize = 8;

/// Powers of two letters, with the second of them once more behind each: the repetitions' worst case, and its like.
fn powers(root: &[u8; 2], exponent: usize, length: usize) -> Vec<u8> {
    let power = [&root.repeat(exponent)[..], &root[1..]].concat();
    power.into_iter().cycle().take(length).collect()
}

fn random(length: usize, number: usize, letters: usize) -> Vec<u8> {
    let mut random = Random::new(0x5eed_0100 + number as u64);
    (0..length).map(|_| random.below(letters) as u8).collect()
}

/// A kind of two starts: its name, the most bytes that they share, and whether the range then ends.
pub type Starts = (&'static str, usize, bool);

pub const STARTS: &[Starts] = &[
    ("differ at the first byte", 0, false),
    ("differ within the first eight bytes", 7, false),
    ("differ within the first 24 bytes", 23, false),
    ("agree on the last 1 to 24 bytes", 24, true),
];

/// How many records are made of each kind of two starts. Each call is given one that is drawn: a branch predictor learns a fixed sequence of
/// 4,096 calls by heart.
pub const TWO_STARTS: usize = 64;

/// Two starts far apart in a record of random letters, which goes on behind them. How many bytes they share, where they stand and
/// which of them comes first is drawn.
pub fn two_starts((_, most, ends): Starts, n: usize, number: usize) -> Case {
    let mut record = random(n, number, 255);
    let mut random = Random::new(0x5eed_0200 + number as u64);
    let (early, late) = (random.below(n / 4), n / 2 + random.below(n / 4));
    let common = if ends { 1 + random.below(most) } else { random.below(most + 1) };
    record.copy_within(early..early + common, late);
    if record[early + common] == record[late + common] {
        record[late + common] ^= 1;
    }
    let starts = if random.below(2) == 0 { [early, late] } else { [late, early] };
    Case { record, starts, end: if ends { late + common } else { n }, ..Case::default() }
}
