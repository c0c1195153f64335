//! Times the verified calls and the peer's, or those of an earlier archive. A line for each call, input and length: their
//! names and the nanoseconds of one call of both. An argument picks the calls whose names have it.
#![cfg_attr(earlier, allow(dead_code))] // what only calls need that an earlier crate lacks, and parts of that crate
mod cases;
#[cfg(earlier)]
#[rustfmt::skip] // its files are there only where it is built
mod earlier;
mod inputs;

use cases::{Buffers, Case};
#[cfg(earlier)]
use earlier as other;
use inputs::{two_starts, INPUTS, MOST_LONG, RUN_INPUTS, STARTS, TWO_STARTS};
#[cfg(not(earlier))]
use metsroeb_tests::peer as other;
use metsroeb_tests::words::Random;
use std::hint::black_box;
use std::time::Instant;

// Moves all code behind it by METSROEB_PAD bytes: where a loop stands in memory can double its time.
std::arch::global_asm!(".text", ".globl metsroeb_bench_pad", "metsroeb_bench_pad:", concat!(".zero 16 + ", env!("METSROEB_PAD")));
extern "C" {
    fn metsroeb_bench_pad();
}

const LENGTHS: [usize; 4] = [512, 1024, 2048, 4096];
const ROUNDS: usize = 25;
const BATCH_NS: f64 = 50_000.0;

/// Reads the answers of a batch: how many entries there are in all.
fn count_entries<'a, E>(replies: impl Iterator<Item = Result<&'a [u16], E>>) -> usize {
    replies.flatten().map(<[u16]>::len).sum()
}

type Call = fn(&Case, &mut Buffers);

/// The timed calls of a module that has the crate's functions, by name. `list` is the case's list that its reader and summary take.
/// `numbers` reads a comparison; it widens the number, since the stack frame of a smaller answer ends with a load that waits for the
/// stores of its parts: 3 nanoseconds, half of a short call.
macro_rules! calls_of {
    (batch $of:ident, $batch:expr, $lent:expr) => {{
        let found = $of::icfl_batch(&$batch.bytes, &$batch.record_ends, &mut $lent.work, &mut $lent.pairs);
        black_box(found.map(|batch| count_entries(batch.iter()))).ok();
    }};
    ($of:ident, $list:ident) => {
        calls_of!($of, $list, |found| (found.order, usize::from(found.common)))
    };
    ($of:ident, $list:ident, $numbers:expr) => {
        [
            ("`metsroeb_test`", |case, lent| {
                black_box($of::find_extension(&case.record, &mut lent.work)).ok();
            }),
            ("`metsroeb_icfl`", |case, lent| {
                black_box($of::icfl(&case.record, &mut lent.work, &mut lent.pairs)).ok();
            }),
            #[cfg(has = "icfl_with_breaks")]
            ("`metsroeb_icfl_breaks`", |case, lent| {
                black_box($of::icfl_with_breaks(&case.record, &mut lent.work, &mut lent.pairs, &mut lent.breaks)).ok();
            }),
            #[cfg(has = "icfl_batch")]
            ("`metsroeb_icfl_batch`, records of 64 bytes", |case, lent| calls_of!(batch $of, case.batches[0], lent)),
            #[cfg(has = "icfl_batch")]
            ("`metsroeb_icfl_batch`, records of 256 bytes", |case, lent| calls_of!(batch $of, case.batches[1], lent)),
            #[cfg(has = "icfl_batch")]
            ("`metsroeb_icfl_batch`, one record", |case, lent| calls_of!(batch $of, case.batches[2], lent)),
            ("`metsroeb_cfl_in`, n result entries: one pass", |case, lent| {
                black_box($of::cfl_in(&case.record, &mut lent.result)).ok();
            }),
            ("`metsroeb_cfl_in`, just enough result entries: counted first if fewer than n", |case, lent| {
                black_box($of::cfl_in(&case.record, &mut lent.result[..case.strict_ends.len()])).ok();
            }),
            ("`metsroeb_lyndon_table`", |case, lent| {
                black_box($of::lyndon_table(&case.record, &mut lent.result)).ok();
            }),
            #[cfg(has = "runs")]
            ("`metsroeb_runs`, 3n result entries: one pass", |case, lent| {
                black_box($of::runs(&case.record, &mut lent.runs).map(|runs| runs.len())).ok();
            }),
            #[cfg(has = "runs")]
            ("`metsroeb_runs`, just enough result entries: counted first if fewer than 3n - 3", |case, lent| {
                black_box($of::runs(&case.record, &mut lent.runs[..case.run_entries]).map(|runs| runs.len())).ok();
            }),
            (SUFFIXES, |case, _| {
                black_box($of::compare_suffixes(&case.record, 0, case.end, case.starts[0], case.starts[1]).map($numbers)).ok();
            }),
            ("`metsroeb_factor`, the last of the strict cut", |case, _| {
                black_box($of::factor_at(&case.record, &case.$list, case.strict_ends.len() - 1)).ok();
            }),
            ("`metsroeb_summarize`, of the strict cut, until count, longest and from are read", |case, _| {
                black_box($of::summarize(&case.record, &case.$list).map(|all| (all.count, all.longest, all.from))).ok();
            }),
            ("`metsroeb_summarize`, of the strict cut, until the bands are read too", |case, _| {
                let all = $of::summarize(&case.record, &case.$list);
                black_box(all.map(|all| (all.count, all.longest, all.from, all.bands.iter().sum::<u16>()))).ok();
            }),
        ]
    };
}

const SUFFIXES: &str = "`metsroeb_compare`, the record with its suffix that agrees longest";

const VERIFIED: &[(&str, Call)] = &calls_of!(metsroeb, strict_pairs);
#[cfg(has = "pairs")]
const OTHER: &[(&str, Call)] = &calls_of!(other, strict_pairs);
#[cfg(all(has = "common", not(has = "pairs")))]
const OTHER: &[(&str, Call)] = &calls_of!(other, strict_ends);
#[cfg(not(has = "common"))]
const OTHER: &[(&str, Call)] = &calls_of!(other, strict_ends, |order| order);

type Pair = (&'static str, [Call; 2]);

/// What is timed on INPUTS, and what on STARTS, by name: each verified call beside the other side's; the verified cut with breaks beside the
/// one without.
fn pairs() -> [Vec<Pair>; 2] {
    let mut pairs: Vec<Pair> = VERIFIED.iter().zip(OTHER).map(|(of, other)| (of.0, [of.1, other.1])).collect();
    let sides_of = |wanted| pairs.iter().find(|(name, _)| *name == wanted).unwrap().1;
    let comparisons = vec![("`metsroeb_compare`, two starts that", sides_of(SUFFIXES))];
    if cfg!(not(earlier)) {
        let [breaks, cut] = ["`metsroeb_icfl_breaks`", "`metsroeb_icfl`"].map(|name| sides_of(name)[0]);
        pairs.push(("`metsroeb_icfl_breaks` over `metsroeb_icfl`, both verified", [breaks, cut]));
    }
    [pairs, comparisons]
}

/// Cases that take turns, or of which each call is given one that is drawn.
struct Bench {
    cases: Vec<Case>,
    lent: Buffers,
    drawn: Option<Random>,
}

/// Nanoseconds of one call.
fn batch(call: Call, Bench { cases, lent, drawn }: &mut Bench, repeats: usize) -> f64 {
    let begin = Instant::now();
    for _ in 0..repeats {
        for turn in 0..cases.len() {
            let number = drawn.as_mut().map_or(turn, |random| random.below(TWO_STARTS));
            call(black_box(&cases[number]), black_box(lent));
        }
    }
    begin.elapsed().as_nanos() as f64 / (repeats * cases.len()) as f64
}

fn median(times: &mut [f64]) -> f64 {
    times.sort_by(f64::total_cmp);
    times[times.len() / 2]
}

/// For each length the nanoseconds of a call, verified and other. Both and all lengths alternate, and who begins, so that they meet the same
/// machine and the same caches.
fn measure(sides: [Call; 2], bench: impl Fn(usize) -> Bench) -> [(f64, f64); 4] {
    let mut benches = LENGTHS.map(bench);
    let repeats = benches.each_mut().map(|b| {
        let once = batch(sides[0], b, 2).min(batch(sides[1], b, 2));
        ((BATCH_NS / once.max(1.0)) as usize / b.cases.len()).clamp(1, 20_000)
    });
    let mut times = LENGTHS.map(|_| [Vec::new(), Vec::new()]);
    for round in 0..ROUNDS {
        for (k, b) in benches.iter_mut().enumerate() {
            for turn in [round % 2, 1 - round % 2] {
                times[k][turn].push(batch(black_box(sides[turn]), b, repeats[k]));
            }
        }
    }
    times.map(|[mut verified, mut other]| (median(&mut verified), median(&mut other)))
}

fn print(name: &str, kind: &str, times: [(f64, f64); 4]) {
    for (n, (verified, other)) in LENGTHS.into_iter().zip(times) {
        println!("{name}\t{kind}\t{n}\t{verified:.2}\t{other:.2}");
    }
}

fn main() {
    black_box(metsroeb_bench_pad as *const ());
    let wanted = std::env::args().nth(1).unwrap_or_default();
    let [pairs, comparisons] = pairs().map(|pairs| pairs.into_iter().filter(|(name, _)| name.contains(&wanted)));
    for (name, sides) in pairs {
        let of_runs = name.contains("runs");
        for &(kind, count, make) in INPUTS.iter().chain(RUN_INPUTS.iter().filter(|_| of_runs)) {
            let count = if of_runs { count.min(MOST_LONG) } else { count };
            let cases = |n| (0..count).map(|k| Case::new(make, n, k)).collect();
            print(name, kind, measure(sides, |n| Bench { cases: cases(n), lent: Buffers::new(n), drawn: None }));
        }
    }
    for (name, sides) in comparisons {
        for &starts in STARTS {
            let cases = |n| (0..TWO_STARTS).map(|k| two_starts(starts, n, k)).collect();
            let drawn = |n| Some(Random::new(0x5eed_0300 + n as u64)); // other draws for each length
            print(name, starts.0, measure(sides, |n| Bench { cases: cases(n), lent: Buffers::new(n), drawn: drawn(n) }));
        }
    }
}
