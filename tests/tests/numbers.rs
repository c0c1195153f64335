//! The numbers that the exported functions write, each with guard entries of its own: those of the crate's answer, and 0 beside
//! a refusal. What the crate answers is held to the promise by the other tests.
use metsroeb::{raw, Comparison, Extension, Factors, Refusal};
use metsroeb_tests::lent::Lent;
use metsroeb_tests::words::{all_marked_words, all_words, Random};
use std::fmt::Debug;

/// Lends `call` a guarded place for each number, and panics unless it refuses as wanted and writes these numbers and nothing else.
fn expect<T: Copy + Default + PartialEq + Debug, const N: usize>(
    what: &str,
    want: Result<[T; N], Refusal>,
    mut numbers: [Lent<T>; N],
    call: impl FnOnce([*mut T; N]) -> u8,
) {
    let before = numbers.clone();
    let refusal = call(numbers.each_mut().map(|number| number.part().as_mut_ptr()));
    assert_eq!(Refusal::check(refusal), want.map(|_| ()), "{what}");
    let wanted = want.unwrap_or([T::default(); N]);
    for (k, lent) in before.into_iter().enumerate() {
        written(what, &numbers[k], lent, wanted[k]);
    }
}

/// Panics unless the wanted number stands in its place, and around it what stood there before.
fn written<T: Copy + PartialEq + Debug>(what: &str, number: &Lent<T>, mut before: Lent<T>, wanted: T) {
    before.part()[0] = wanted;
    number.expect(&before, what);
}

fn entries<const N: usize>(random: &mut Random) -> [Lent<u16>; N] {
    std::array::from_fn(|_| Lent::entries(1, random))
}

/// Short words, without marks and with some, and records at and far above the boundary of line 2.
fn records() -> Vec<Vec<u8>> {
    let long = [4096, 4097, 65_536, 65_537].map(|length| vec![b'a'; length]);
    let marked = (1..=4).flat_map(|length| all_marked_words(3, length));
    (0..=6).flat_map(|length| all_words(2, length)).chain(marked).chain(long).collect()
}

/// The sizes from 0 to twice 7, and those at and around `needed`.
fn sizes(needed: usize) -> impl Iterator<Item = usize> {
    (0..=14).chain(needed.saturating_sub(1)..=needed + 1)
}

#[test]
fn extension() {
    let mut random = Random::new(0x5eed_0031);
    for word in records() {
        for work_len in sizes(word.len()) {
            let mut work = vec![0; work_len];
            let want = metsroeb::find_extension(&word, &mut work).map(|found| match found {
                Extension::InverseLyndon => [0; 3],
                Extension::Failing { failing, prefix, border } => [failing, prefix, border].map(|length| length as u16),
            });
            expect("metsroeb_test", want, entries(&mut random), |[failing, prefix, border]| unsafe {
                raw::metsroeb_test(word.as_ptr(), word.len(), work.as_mut_ptr(), work_len, failing, prefix, border)
            });
        }
    }
}

#[test]
fn counts() {
    let mut random = Random::new(0x5eed_0032);
    for word in records() {
        let n = word.len();
        for len in sizes(n) {
            let mut result = vec![0; len];
            for work_len in [0, 3 * n, 3 * n + 1] {
                let mut work = vec![0; work_len];
                let want = metsroeb::icfl(&word, &mut work, &mut result).map(|pairs| [Factors::read(pairs).len() as u16]);
                expect("metsroeb_icfl", want, entries(&mut random), |[count]| unsafe {
                    raw::metsroeb_icfl(word.as_ptr(), n, work.as_mut_ptr(), work_len, result.as_mut_ptr(), len, count)
                });
            }
            for breaks_len in [0, 4, 5, 5 * n] {
                let (mut work, mut breaks) = (vec![0; 3 * n], vec![0; breaks_len]);
                let want = metsroeb::icfl_with_breaks(&word, &mut work, &mut result, &mut breaks)
                    .map(|(pairs, breaks)| [Factors::read(pairs).len(), breaks.len()].map(|count| count as u16));
                expect("metsroeb_icfl_breaks", want, entries(&mut random), |[count, break_count]| unsafe {
                    raw::metsroeb_icfl_breaks(
                        word.as_ptr(),
                        n,
                        work.as_mut_ptr(),
                        work.len(),
                        result.as_mut_ptr(),
                        len,
                        breaks.as_mut_ptr(),
                        breaks_len,
                        count,
                        break_count,
                    )
                });
            }
            let want = metsroeb::cfl_in(&word, &mut result).map(|ends| [ends.len() as u16]);
            expect("metsroeb_cfl_in", want, entries(&mut random), |[count]| unsafe {
                raw::metsroeb_cfl_in(word.as_ptr(), n, result.as_mut_ptr(), len, count)
            });
            let want = metsroeb::lyndon_table(&word, &mut result).map(|lengths| [lengths.len() as u16]);
            expect("metsroeb_lyndon_table", want, entries(&mut random), |[count]| unsafe {
                raw::metsroeb_lyndon_table(word.as_ptr(), n, result.as_mut_ptr(), len, count)
            });
            let want = metsroeb::runs(&word, &mut result).map(|runs| [runs.len() as u16]);
            expect("metsroeb_runs", want, entries(&mut random), |[count]| unsafe {
                raw::metsroeb_runs(word.as_ptr(), n, result.as_mut_ptr(), len, count)
            });
        }
    }
}

#[test]
fn sign_and_common() {
    let mut random = Random::new(0x5eed_0033);
    for word in records() {
        let n = word.len();
        for _ in 0..200 {
            let [first, end, start, other] = std::array::from_fn(|_| random.below(n.min(4096) + 3));
            let want = metsroeb::compare_suffixes(&word, first, end, start, other);
            let (mut sign, mut common) = (Lent::sign(&mut random), Lent::entries(1, &mut random));
            let before = (sign.clone(), common.clone());
            let places = (sign.part().as_mut_ptr(), common.part().as_mut_ptr());
            let refusal = unsafe { raw::metsroeb_compare(word.as_ptr(), n, first, end, start, other, places.0, places.1) };
            assert_eq!(Refusal::check(refusal), want.map(|_| ()), "metsroeb_compare");
            let wanted = want.map_or((0, 0), |Comparison { order, common }| (order as i8, common));
            written("metsroeb_compare: sign", &sign, before.0, wanted.0);
            written("metsroeb_compare: common", &common, before.1, wanted.1);
        }
    }
}

/// Paired lists that are taken, and lists that are not.
fn lists(length: usize) -> Vec<Vec<u16>> {
    let last = length as u16;
    vec![
        vec![],
        vec![last],
        vec![0, 0],
        vec![last, 0],
        vec![last, 1],
        vec![last, last],
        vec![last, last.wrapping_add(1)],
        vec![1, 1, last, 1],
        vec![2, 2, last, last.wrapping_sub(2)],
        vec![2, 1, last, 1, 1],
        vec![last, 1, last, 1],
        (1..=last).flat_map(|end| [end, 1]).collect(),
        vec![last.wrapping_add(1), 1],
    ]
}

#[test]
fn places() {
    let mut random = Random::new(0x5eed_0034);
    for word in records() {
        for list in lists(word.len()) {
            for number in 0..=list.len() + 1 {
                let want = metsroeb::factor_at(&word, &list, number).map(|part| {
                    let end = list[2 * number];
                    [end - part.len() as u16, end]
                });
                expect("metsroeb_factor", want, entries(&mut random), |[first, end]| unsafe {
                    raw::metsroeb_factor(word.as_ptr(), word.len(), list.as_ptr(), list.len(), number, first, end)
                });
            }
        }
    }
}

#[test]
fn summary() {
    for word in records() {
        for list in lists(word.len()) {
            let got = unsafe { raw::metsroeb_summarize(word.as_ptr(), word.len(), list.as_ptr(), list.len()) };
            let want = match metsroeb::summarize(&word, &list) {
                Ok(all) => raw::Summary { refusal: 0, count: all.count, longest: all.longest, from: all.from, bands: all.bands },
                Err(refusal) => raw::Summary { refusal: refusal.number(), count: 0, longest: 0, from: 0, bands: [0; 13] },
            };
            assert_eq!(got, want);
        }
    }
}
