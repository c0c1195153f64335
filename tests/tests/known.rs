//! Paper 01's records with known ends, and what else it and the requests say of records by name, through every implementation.
use metsroeb::{Break, Comparison, Extension, Factor, Factors, Fate, Refusal, Run, Summary, MOST};
use metsroeb_tests::words::{fibonacci_word, RECORDS};
use metsroeb_tests::{reference, Side, BOTH};
use std::cmp::Ordering;

const G: &[u8] = b"bbabbabbb";
const H: &[u8] = b"cbabacbac";
const I: &[u8] = b"cbabacaacbabacbac";

#[test]
fn records_a_to_k() {
    for (word, pairs, strict) in RECORDS {
        let word = word.as_bytes();
        assert_eq!(reference::icfl(word), pairs);
        assert_eq!(reference::cfl_in(word), strict);
        for side in BOTH {
            let (mut work, mut result) = (vec![0; 3 * word.len()], vec![0; 2 * word.len()]);
            assert_eq!(side.icfl(word, &mut work, &mut result), Ok(pairs));
            assert_eq!(side.cfl_in(word, &mut result), Ok(strict));
            // reader and summary take the list as it is
            assert_eq!(side.summarize(word, pairs).map(|summary| 2 * usize::from(summary.count)), Ok(pairs.len()));
            let mut from = 0;
            for (number, Factor { end, .. }) in Factors::read(pairs).enumerate() {
                assert_eq!(side.factor_at(word, pairs, number), Ok(&word[from..end.into()]));
                from = end.into();
            }
            assert_eq!(side.factor_at(word, pairs, pairs.len() / 2), Err(Refusal::BAD_NUMBER));
        }
    }
}

/// Two entries are one factor, and a lone one is none.
#[test]
fn factors_of_entries() {
    let factors = Factors::read(&[13, 2, 17, 2]);
    assert_eq!(factors.len(), 2);
    assert!(factors.eq([Factor { end: 13, anti_lyndon: 2 }, Factor { end: 17, anti_lyndon: 2 }]));
    assert_eq!([&[][..], &[13], &[13, 2], &[13, 2, 17]].map(|entries| Factors::read(entries).count()), [0, 0, 1, 1]);
}

/// Request 102, with its example, record I. The others: joined with 0; one join inside another; no break, and then no room for
/// breaks is needed; a break after every letter but the last.
#[test]
fn breaks_of_records() {
    use Fate::{Joined, Kept};
    let with = |place, begun, border, fate| Break { place, begun, border, fate };
    let records: [(&str, &[u16], &[Break]); 5] = [
        ("cbabacaacbabacbac", &[13, 2, 17, 2], &[with(8, 0, 6, Joined(1)), with(13, 8, 3, Kept(b'b', b'c'))]),
        ("baababb", &[5, 2, 7, 2], &[with(3, 0, 2, Joined(0)), with(5, 3, 1, Kept(b'a', b'b'))]),
        (
            "cbabacaacbabaacbabacaacbabacbac",
            &[27, 3, 31, 2],
            &[with(14, 0, 13, Joined(0)), with(22, 14, 6, Joined(1)), with(27, 22, 3, Kept(b'b', b'c'))],
        ),
        ("baba", &[4, 2], &[]),
        (
            "abcd",
            &[1, 1, 2, 1, 3, 1, 4, 1],
            &[with(1, 0, 0, Kept(b'a', b'b')), with(2, 1, 0, Kept(b'b', b'c')), with(3, 2, 0, Kept(b'c', b'd'))],
        ),
    ];
    for (word, pairs, breaks) in records {
        let word = word.as_bytes();
        assert_eq!(reference::icfl_with_breaks(word), (pairs.to_vec(), breaks.to_vec()));
        for side in BOTH {
            let mut lent = (vec![0; 3 * word.len()], vec![0; pairs.len()], vec![0; 5 * breaks.len()]);
            let (got, considered) = side.icfl_with_breaks(word, &mut lent.0, &mut lent.1, &mut lent.2).unwrap();
            assert_eq!((got, considered.len()), (pairs, breaks.len()));
            assert_eq!(considered.collect::<Vec<_>>(), breaks);
        }
    }
}

/// A factor fills two entries, "in its buffer a break fills five"; what lies past the answers stays.
#[test]
fn entries_of_i() {
    for side in BOTH {
        let (mut pairs, mut breaks) = ([7; 6], [7; 12]);
        side.icfl_with_breaks(I, &mut [7; 51], &mut pairs, &mut breaks).unwrap();
        assert_eq!(pairs, [13, 2, 17, 2, 7, 7]);
        assert_eq!(breaks, [8, 0, 6, 256, 1, 13, 8, 3, b'b'.into(), b'c'.into(), 7, 7]);
    }
}

/// "A short buffer for them is met by refusal 4, once the ends have been found to fit": the pairs are not written then.
#[test]
fn i_with_short_results() {
    for side in BOTH {
        for (pairs_len, breaks_len) in [(4, 9), (3, 10), (3, 9), (2, 10), (0, 10)] {
            let (mut work, mut pairs, mut breaks) = ([7; 52], [7; 4], [7; 10]);
            let got = side.icfl_with_breaks(I, &mut work, &mut pairs[..pairs_len], &mut breaks[..breaks_len]);
            assert_eq!(got.err(), Some(Refusal::SHORT_RESULT));
            assert_eq!((&work[..51], work[51], pairs, breaks), (&[0; 51][..], 7, [7; 4], [7; 10]));
        }
    }
}

#[test]
fn extensions_of_h_and_i() {
    for side in BOTH {
        let found = |word| side.find_extension(word, &mut [0; 17]);
        assert_eq!(found(H), Ok(Extension::Failing { failing: 9, prefix: 5, border: 3 }));
        assert_eq!(found(I), Ok(Extension::Failing { failing: 15, prefix: 8, border: 6 }));
        assert_eq!(found(b"baba"), Ok(Extension::InverseLyndon));
    }
}

#[test]
fn start_table_and_summary_of_h() {
    for side in BOTH {
        assert_eq!(side.lyndon_table(H, &mut [0; 9]), Ok(&[5, 2, 1, 2, 1, 3, 2, 1, 1][..]));
        let summary = Summary { count: 2, longest: 5, from: 0, bands: [0, 0, 2, 0, 0, 0, 0, 0, 0, 0, 0, 0, 0] };
        assert_eq!(side.summarize(H, &[5, 1, 9, 2]), Ok(summary));
        assert_eq!(side.factor_at(H, &[5, 1, 9, 2], 1), Ok(&b"cbac"[..]));
    }
}

/// First place, end and period of each repetition of a word; the reference has the same.
fn runs_of(side: &Side, word: &[u8]) -> Vec<[u16; 3]> {
    let mut entries = vec![0; 3 * word.len()];
    let found: Vec<Run> = side.runs(word, &mut entries).unwrap().collect();
    assert_eq!(found, reference::runs(word));
    found.iter().map(|run| [run.first, run.end, run.period]).collect()
}

/// Request 107, with its example. The others: none, for which no entry is needed; the smallest period alone, and an end within it; one
/// inside another, at its front, in its middle and at its end; one that goes on in another.
#[test]
fn repetitions_of_records() {
    let records: [(&str, &[[u16; 3]]); 10] = [
        ("aabaabaa", &[[0, 2, 1], [0, 8, 3], [3, 5, 1], [6, 8, 1]]),
        ("a", &[]),
        ("abcacb", &[]),
        ("aaaa", &[[0, 4, 1]]),
        ("babab", &[[0, 5, 2]]),
        ("abaab", &[[2, 4, 1]]),
        ("mississippi", &[[1, 8, 3], [2, 4, 1], [5, 7, 1], [8, 10, 1]]),
        ("abaababa", &[[0, 6, 3], [2, 4, 1], [3, 8, 2]]),
        ("aabbaabbb", &[[0, 2, 1], [0, 8, 4], [2, 4, 1], [4, 6, 1], [6, 9, 1]]),
        ("abababcabababc", &[[0, 6, 2], [0, 14, 7], [7, 13, 2]]),
    ];
    for (word, runs) in records {
        for side in BOTH {
            assert_eq!(runs_of(side, word.as_bytes()), runs);
            let mut entries = vec![0; 3 * runs.len()];
            assert_eq!(side.runs(word.as_bytes(), &mut entries).unwrap().len(), runs.len());
        }
    }
}

/// "Each fills three 16-bit entries in that order, from entry 0, and what a result buffer holds past the answer stays"; "a short list
/// buffer gets 4", and is as it was.
#[test]
fn entries_of_a_list_and_short_lists() {
    for side in BOTH {
        let mut entries = [7; 14];
        assert_eq!(side.runs(b"aabaabaa", &mut entries).unwrap().len(), 4);
        assert_eq!(entries, [0, 2, 1, 0, 8, 3, 3, 5, 1, 6, 8, 1, 7, 7]);
        let mut entries = [7; 12];
        for len in 0..12 {
            assert_eq!(side.runs(b"aabaabaa", &mut entries[..len]).err(), Some(Refusal::SHORT_RESULT));
            assert_eq!(entries, [7; 12]);
        }
    }
}

/// As published (Kolpakov and Kucherov): a Fibonacci word has twice as many repetitions as the one two before it has letters, less 3.
#[test]
fn repetitions_of_fibonacci_words() {
    let (mut two_before, mut before) = (3, 5);
    while two_before + before <= MOST {
        let length = two_before + before;
        for side in BOTH {
            for (x, y) in [(b'a', b'b'), (b'b', b'a')] {
                assert_eq!(runs_of(side, &fibonacci_word(x, y, length)).len(), 2 * two_before - 3);
            }
        }
        (two_before, before) = (before, length);
    }
    assert_eq!(before, 2584);
}

/// Request 101: of equally long pieces the latest. E has three of them, K two; in the last record two are neighbours, and the
/// third is neither their neighbour nor the last piece.
#[test]
fn latest_of_the_longest() {
    for (word, pairs, longest, from) in [
        (&b"baba"[..], &[4, 2][..], 4, 0),
        (b"abc", &[1, 1, 2, 1, 3, 1], 1, 2),
        (b"aabb", &[2, 2, 4, 2], 2, 2),
        (b"dabdadacddbdc", &[3, 1, 8, 1, 13, 1], 5, 8),
        (b"aabbcdde", &[2, 2, 4, 2, 5, 1, 7, 2, 8, 1], 2, 5),
    ] {
        assert_eq!(reference::icfl(word), pairs);
        let wanted = |summary: Summary| (summary.longest, summary.from) == (longest, from);
        assert!(wanted(reference::summary(pairs)));
        for side in BOTH {
            assert!(side.summarize(word, pairs).is_ok_and(wanted));
        }
    }
}

/// Paper 01's signs, with request 104's numbers; starts that agree past the end of G's first piece; equal starts.
#[test]
fn comparisons_by_name() {
    use Ordering::{Equal, Greater, Less};
    for (word, range, starts, order, common) in [
        (H, [0, 9], [0, 5], Greater, 3),
        (H, [5, 9], [5, 8], Greater, 1),
        (H, [0, 9], [5, 5], Equal, 4),
        (H, [0, 7], [5, 5], Equal, 2),
        (G, [0, 6], [0, 3], Greater, 3),
        (G, [0, 9], [0, 3], Greater, 5),
        (b"bba", [0, 2], [0, 1], Greater, 1),
        (b"bba", [0, 3], [0, 1], Less, 1),
    ] {
        let (x, y) = (&word[starts[0]..range[1]], &word[starts[1]..range[1]]);
        assert_eq!((reference::inverse_order(x, y), reference::common_length(x, y)), (order, common.into()));
        for side in BOTH {
            let got = side.compare_suffixes(word, range[0], range[1], starts[0], starts[1]);
            assert_eq!(got, Ok(Comparison { order, common }));
        }
    }
}

/// "Refusal 4 counts both numbers, so H needs four entries": also with three it gets 4, and the buffer is as it was.
#[test]
fn h_with_four_entries_and_with_fewer() {
    for side in BOTH {
        assert_eq!(side.icfl(H, &mut [0; 27], &mut [0; 4]), Ok(&[5, 1, 9, 2][..]));
        for len in 0..4 {
            let (mut work, mut pairs) = ([7; 28], [7; 4]);
            assert_eq!(side.icfl(H, &mut work, &mut pairs[..len]), Err(Refusal::SHORT_RESULT));
            assert_eq!((&work[..27], work[27], pairs), (&[0; 27][..], 7, [7; 4]));
        }
        assert_eq!(Refusal::SHORT_RESULT.number(), 4);
    }
}

/// Line 7 of H's list: "also an odd number of entries, or a count that is 0 or above its piece's length". A count that is not the
/// strict cut's is taken, and changes nothing. Line 8 counts pairs.
#[test]
fn lists_for_h() {
    for side in BOTH {
        for pairs in [[5, 1, 9, 1], [5, 5, 9, 4], [5, 2, 9, 2]] {
            assert_eq!(side.factor_at(H, &pairs, 1), Ok(&b"cbac"[..]));
            assert_eq!(side.summarize(H, &pairs), side.summarize(H, &[5, 1, 9, 2]));
            for number in [2, 3, 4] {
                assert_eq!(side.factor_at(H, &pairs, number), Err(Refusal::BAD_NUMBER));
            }
        }
        let odd: [&[u16]; 5] = [&[9], &[5, 9, 9], &[5, 1, 9], &[5, 1, 9, 2, 1], &[5, 1, 9, 2, 9]];
        let counts: [&[u16]; 6] = [&[5, 0, 9, 2], &[5, 1, 9, 0], &[5, 6, 9, 2], &[5, 1, 9, 5], &[5, 1, 9, 9], &[9, 10]];
        let ends: [&[u16]; 6] = [&[], &[5, 1], &[0, 1, 9, 2], &[9, 1, 9, 1], &[5, 1, 10, 2], &[5, 9]];
        for list in [&odd[..], &counts, &ends].concat() {
            assert_eq!(side.factor_at(H, list, 0), Err(Refusal::BAD_PAIRS), "{list:?}");
            assert_eq!(side.summarize(H, list), Err(Refusal::BAD_PAIRS), "{list:?}");
        }
        assert_eq!(Refusal::BAD_PAIRS.number(), 7);
    }
}

/// "Length 4,096 is accepted and 4,097 gets 2", by every call; the test refuses marks by 9.
#[test]
fn the_longest_record_and_one_byte_more() {
    fn refusals(side: &Side, word: &[u8]) -> [Option<u8>; 9] {
        let n = word.len();
        let (mut work, mut result, mut breaks) = (vec![0; 3 * n], vec![0; 2 * n], vec![0; 5 * n]);
        [
            side.find_extension(word, &mut work).err(),
            side.icfl(word, &mut work, &mut result).err(),
            side.icfl_with_breaks(word, &mut work, &mut result, &mut breaks).err(),
            side.cfl_in(word, &mut result).err(),
            side.lyndon_table(word, &mut result).err(),
            side.runs(word, &mut work).err(),
            side.compare_suffixes(word, 0, n, 0, n - 1).err(),
            side.factor_at(word, &[n as u16, 1], 0).err(),
            side.summarize(word, &[n as u16, 1]).err(),
        ]
        .map(|refused| refused.map(Refusal::number))
    }
    assert_eq!(MOST, 4096);
    for side in BOTH {
        for letter in [0, b'a', 254, 255] {
            let mut wanted = [None; 9];
            wanted[0] = (letter == 255).then_some(9);
            assert_eq!(refusals(side, &vec![letter; 4096]), wanted);
            assert_eq!(refusals(side, &vec![letter; 4097]), [Some(2); 9]);
        }
    }
}

/// Every line of the table has its number, and prints a condition of its own.
#[test]
fn refusals_print_their_conditions() {
    let lines = [
        Refusal::EMPTY_RECORD,
        Refusal::LONG_RECORD,
        Refusal::SHORT_WORK,
        Refusal::SHORT_RESULT,
        Refusal::BAD_RANGE,
        Refusal::BAD_START,
        Refusal::BAD_PAIRS,
        Refusal::BAD_NUMBER,
        Refusal::MARKED_RECORD,
        Refusal::BAD_RECORD_ENDS,
    ];
    let unknown = Refusal::check(255).unwrap_err().condition();
    for (k, line) in lines.into_iter().enumerate() {
        let number = k as u8 + 1;
        assert_eq!(Refusal::check(number), Err(line));
        assert_eq!(line.to_string(), format!("refusal {number}: {}", line.condition()));
        assert!(line.condition() != unknown && lines[..k].iter().all(|other| line.condition() != other.condition()));
    }
}
