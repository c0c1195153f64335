//! What requests 103, 107 and 108 say of records with marks, bytes 255, through every implementation.
use metsroeb::{Break, Comparison, Fate, Refusal, Run};
use metsroeb_tests::{reference, BOTH};
use std::cmp::Ordering;

const I: &[u8] = b"cbabacaacbabacbac";
/// Their piece ends, each with its count, which is 1 of a mark; their strict ends; their start tables.
#[test]
fn records_with_marks() {
    for (word, pairs, strict, lengths) in [
        (&b"\xff"[..], &[1, 1][..], &[1][..], &[1][..]),
        (b"\xff\xffa", &[1, 1, 2, 1, 3, 1], &[1, 2, 3], &[1, 1, 1]),
        (b"ba\xffba", &[2, 1, 3, 1, 5, 1], &[2, 3, 5], &[2, 1, 1, 2, 1]),
        (b"a\xffab\xff", &[1, 1, 2, 1, 3, 1, 4, 1, 5, 1], &[1, 2, 3, 4, 5], &[1, 1, 1, 1, 1]),
        (b"ab\xff\xffcb", &[1, 1, 2, 1, 3, 1, 4, 1, 6, 1], &[1, 2, 3, 4, 6], &[1, 1, 1, 1, 2, 1]),
        (b"\xffaa\xffbaba", &[1, 1, 3, 2, 4, 1, 8, 2], &[1, 2, 3, 4, 6, 8], &[1, 1, 1, 1, 2, 1, 2, 1]),
        (b"aaa\xff\xffa", &[3, 3, 4, 1, 5, 1, 6, 1], &[1, 2, 3, 4, 5, 6], &[1, 1, 1, 1, 1, 1]),
    ] {
        let answers = (reference::icfl(word), reference::cfl_in(word), reference::lyndon_table(word));
        assert_eq!(answers, (pairs.to_vec(), strict.to_vec(), lengths.to_vec()));
        for side in BOTH {
            let (mut work, mut result) = (vec![0; 3 * word.len()], vec![0; 2 * word.len()]);
            assert_eq!(side.icfl(word, &mut work, &mut result), Ok(pairs));
            assert_eq!(side.cfl_in(word, &mut result), Ok(strict));
            assert_eq!(side.lyndon_table(word, &mut result), Ok(lengths));
        }
    }
}

/// "Breaks are given by stretch, in the record's places; marks and the last pieces of stretches end without one."
#[test]
fn breaks_of_i_beside_a_mark() {
    use Fate::{Joined, Kept};
    let word = [I, b"\xff", I].concat();
    let step = |from| {
        let joined = Break { place: from + 8, begun: from, border: 6, fate: Joined(1) };
        [joined, Break { place: from + 13, begun: from + 8, border: 3, fate: Kept(b'b', b'c') }]
    };
    let (pairs, breaks) = ([13, 2, 17, 2, 18, 1, 31, 2, 35, 2], [step(0), step(18)].concat());
    assert_eq!(reference::icfl_with_breaks(&word), (pairs.to_vec(), breaks.clone()));
    for side in BOTH {
        let (mut work, mut lent_pairs, mut lent) = ([7; 105], [7; 10], [7; 20]);
        let (got, considered) = side.icfl_with_breaks(&word, &mut work, &mut lent_pairs, &mut lent).unwrap();
        assert_eq!(got, pairs);
        assert_eq!(considered.collect::<Vec<_>>(), breaks);
        assert_eq!(work, [0; 105]);
    }
}

/// "Marks (byte 255) belong to none and end their neighbours": neither equal marks side by side nor marks at equal distances repeat, and
/// what would go on behind a mark ends before it.
#[test]
fn repetitions_beside_marks() {
    let records: [(&[u8], &[[u16; 3]]); 11] = [
        (b"\xff", &[]),
        (b"\xff\xff\xff\xff", &[]),
        (b"\xff\xffaa\xff\xff", &[[2, 4, 1]]),
        (b"aa\xffaa", &[[0, 2, 1], [3, 5, 1]]),
        (b"a\xffa\xffa\xffa", &[]),
        (b"ab\xffab\xffab\xff", &[]),
        (b"\xffabab", &[[1, 5, 2]]),
        (b"abab\xffabab", &[[0, 4, 2], [5, 9, 2]]),
        (b"aba\xffbab", &[]),
        (b"aabaa\xffbaa", &[[0, 2, 1], [3, 5, 1], [7, 9, 1]]),
        (b"baba\xff\xffaabaab", &[[0, 4, 2], [6, 8, 1], [6, 12, 3], [9, 11, 1]]),
    ];
    for (word, runs) in records {
        let runs: Vec<Run> = runs.iter().map(|&entries| Run::from(entries)).collect();
        assert_eq!(reference::runs(word), runs);
        for side in BOTH {
            let mut entries = vec![0; 3 * runs.len()];
            assert_eq!(side.runs(word, &mut entries).unwrap().collect::<Vec<_>>(), runs);
        }
    }
}

/// "9, a test of a record that holds a mark, after 3": a short work buffer is met first, and 9 leaves it as it was too.
#[test]
fn test_of_a_record_with_a_mark() {
    for side in BOTH {
        for word in [b"ba\xffba", b"\xffabab", b"ababa", b"baba\xff"] {
            let (marked, mut work) = (word.contains(&255), [7; 6]);
            assert_eq!(side.find_extension(word, &mut work[..4]), Err(Refusal::SHORT_WORK));
            assert_eq!(work, [7; 6]);
            let refused = side.find_extension(word, &mut work[..5]).err();
            assert_eq!(refused, marked.then_some(Refusal::MARKED_RECORD));
            assert_eq!(work, if marked { [7; 6] } else { [0, 0, 0, 0, 0, 7] });
        }
        assert_eq!(Refusal::MARKED_RECORD.number(), 9);
    }
}

/// "The comparison treats 255 as before", as the largest letter; equal marks count as equal bytes.
#[test]
fn comparisons_over_marks() {
    for side in BOTH {
        for (end, order) in [(2, Ordering::Greater), (3, Ordering::Less)] {
            let got = side.compare_suffixes(b"\xff\xffa", 0, end, 0, 1);
            assert_eq!(got, Ok(Comparison { order, common: 1 }));
        }
        let got = side.compare_suffixes(b"a\xffba\xffc", 0, 6, 0, 3);
        assert_eq!(got, Ok(Comparison { order: Ordering::Greater, common: 2 }));
    }
}
