//! All words of length 1 to 9 over 2 letters, 1 to 7 over 3, and 1 to 6 over 2 letters and the mark, against the definitions. The
//! repetitions of longer ones too.
use metsroeb::Run;
use metsroeb_tests::agree::{self, Answers};
use metsroeb_tests::reference;
use metsroeb_tests::words::{all_divisions, all_marked_words, all_words, with_counts, Random};
use metsroeb_tests::{Side, BOTH, PEER, VERIFIED};

fn short_words() -> impl Iterator<Item = Vec<u8>> {
    let two = (1..=9).flat_map(|length| all_words(2, length));
    let three = (1..=7).flat_map(|length| all_words(3, length));
    two.chain(three).chain((1..=6).flat_map(|length| all_marked_words(3, length)))
}

fn all_calls(side: &Side) {
    let mut random = Random::new(0x5eed_0001);
    let mut count = 0;
    for word in short_words() {
        let (n, answers) = (word.len(), Answers::by_definition(&word));
        for work_len in [n - 1, n, n + 1] {
            agree::find_extension(side, &word, &answers, work_len, &mut random);
        }
        for pairs_len in 0..=2 * n + 1 {
            for work_len in [3 * n - 1, 3 * n, 3 * n + 1] {
                agree::icfl(side, &word, &answers, work_len, pairs_len, &mut random);
                let needed = 5 * answers.breaks.len();
                for breaks_len in [0, needed.saturating_sub(1), needed, needed + 1, 5 * n] {
                    agree::icfl_with_breaks(side, &word, &answers, [work_len, pairs_len, breaks_len], &mut random);
                }
            }
        }
        for ends_len in 0..=n + 1 {
            agree::cfl_in(side, &word, &answers, ends_len, &mut random);
            agree::lyndon_table(side, &word, &answers, ends_len, &mut random);
        }
        for runs_len in 0..=3 * answers.runs.len() + 1 {
            agree::runs(side, &word, &answers, runs_len, &mut random);
        }
        count += 1;
    }
    assert_eq!(count, 1022 + 3279 + 1092);
}

#[test]
fn test_cuts_and_table_of_the_library() {
    all_calls(&VERIFIED);
}

#[test]
fn test_cuts_and_table_of_the_peer() {
    all_calls(&PEER);
}

/// Up to 12 letters over 2, 9 over 3, 8 over 2 and the mark, 6 over 3 and the mark; with an entry too few, just enough and more.
#[test]
fn repetitions() {
    let mut random = Random::new(0x5eed_0004);
    let two = (1..=12).flat_map(|length| all_words(2, length));
    let three = (1..=9).flat_map(|length| all_words(3, length));
    let marked = [(3, 8), (4, 6)].into_iter();
    let marked = marked.flat_map(|(letters, most)| (1..=most).flat_map(move |length| all_marked_words(letters, length)));
    for word in two.chain(three).chain(marked) {
        let answers = Answers { runs: reference::runs(&word), ..Answers::NONE };
        let needed = 3 * answers.runs.len();
        for side in BOTH {
            for runs_len in [needed.saturating_sub(1), needed, needed + 1, 3 * word.len()] {
                agree::runs(side, &word, &answers, runs_len, &mut random);
            }
        }
    }
}

/// The reference lists all that are repetitions by the request's text, by first place and then by period, and no others; fewer than
/// the word has bytes.
#[test]
fn the_only_repetitions() {
    for word in short_words() {
        let n = word.len() as u16;
        let places =
            (0..n).flat_map(|first| (1..=n).flat_map(move |period| (first + 1..=n).map(move |end| (first, period, end))));
        let all = places.map(|(first, period, end)| Run { first, end, period });
        let found: Vec<Run> = all.filter(|&run| reference::is_run(&word, run)).collect();
        assert!(found.len() < word.len());
        assert_eq!(found, reference::runs(&word));
    }
}

/// As published (Kolpakov and Kucherov): the most repetitions that a word of 5 to 15 letters over 2 has.
#[test]
fn the_most_repetitions() {
    let count = |word: Vec<u8>| VERIFIED.runs(&word, &mut [0; 45]).unwrap().len();
    let most: Vec<usize> = (5..=15).map(|length| all_words(2, length).map(count).max().unwrap()).collect();
    assert_eq!(most, [2, 3, 4, 5, 5, 6, 7, 8, 8, 10, 10]);
}

/// Every range and every two starts of it.
#[test]
fn comparison() {
    let mut random = Random::new(0x5eed_0002);
    for word in short_words() {
        let n = word.len();
        for first in 0..n {
            for end in first + 1..=n {
                for start in first..end {
                    for other in first..end {
                        agree::compare_suffixes(&VERIFIED, &word, [first, end], [start, other], &mut random);
                        agree::compare_suffixes(&PEER, &word, [first, end], [start, other], &mut random);
                    }
                }
            }
        }
    }
}

/// Every list of ends that is accepted for records of up to 12 letters, with any counts that are, and every number about theirs.
#[test]
fn reader_and_summary() {
    let mut random = Random::new(0x5eed_0003);
    for length in 1..=12 {
        let word = vec![b'a'; length];
        for ends in all_divisions(length) {
            let list = with_counts(&ends, &mut random);
            for side in BOTH {
                agree::summarize(side, &word, &list, &mut random);
                for number in 0..=ends.len() + 1 {
                    agree::factor_at(side, &word, &list, number, &mut random);
                }
            }
        }
    }
}

/// What request 108 says of the reference's pairs, where the strict cut is the definition's only one: a piece by itself has as many
/// strict pieces as its count says.
#[test]
fn counts_of_pieces_alone() {
    for word in short_words() {
        let pairs = reference::icfl(&word);
        let parts = reference::parts(&reference::ends_of(&pairs)).into_iter();
        let alone = parts.map(|(from, end)| reference::cfl_in(&word[from.into()..end.into()]).len() as u16);
        assert!(alone.eq(pairs.iter().skip(1).step_by(2).copied()));
    }
}

/// The reference's strict cut is the only division of the paper's kind.
#[test]
fn the_only_strict_cut() {
    for word in short_words() {
        let found: Vec<_> = all_divisions(word.len()).filter(|ends| reference::is_cfl_in(&word, ends)).collect();
        assert_eq!(found, [reference::cfl_in(&word)]);
    }
}
