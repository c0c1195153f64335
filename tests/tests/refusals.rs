//! Every line of paper 01's table at its boundaries, alone and together with faults of other lines: the earlier line wins.
use metsroeb_tests::agree::{self, Answers};
use metsroeb_tests::reference::{parts, SEPARATOR};
use metsroeb_tests::words::{all_divisions, all_words, with_counts, Random};
use metsroeb_tests::{promise, BOTH, VERIFIED};

/// Records at the boundaries of lines 1 and 2, also where 16 bits overflow, with the answers for those that are accepted: over one
/// letter, two, and all but the mark; then of marks alone, and with a mark as the last byte alone.
fn records() -> Vec<(Vec<u8>, Answers)> {
    let lengths = [0, 1, 2, 9, 4095, 4096, 4097, 4098, 8192, 65_535, 65_536, 65_537, 65_545, 70_000];
    let mut random = Random::new(0x5eed_0021);
    let mut records = Vec::new();
    for length in lengths {
        let mut over = |letters| (0..length).map(|_| random.below(letters) as u8).collect::<Vec<u8>>();
        let mut words = [over(1), over(2), over(255), vec![SEPARATOR; length], over(2)];
        if let Some(last) = words[4].last_mut() {
            *last = SEPARATOR;
        }
        for word in words {
            let answers = if (1..=4096).contains(&length) { Answers::by_peer(&word) } else { Answers::NONE };
            records.push((word, answers));
        }
    }
    records
}

/// The sizes at and around each of `needed`, and none at all.
fn sizes(needed: &[usize]) -> Vec<usize> {
    let mut sizes = vec![0, 1];
    sizes.extend(needed.iter().flat_map(|&n| [n.saturating_sub(1), n, n + 1]));
    sizes
}

#[test]
fn records_and_buffers() {
    let mut random = Random::new(0x5eed_0022);
    for (word, answers) in records() {
        let n = word.len().min(4098);
        for side in BOTH {
            for work_len in sizes(&[n, 3 * n]) {
                agree::find_extension(side, &word, &answers, work_len, &mut random);
                let (entries, pieces) = (answers.icfl.len(), answers.icfl.len() / 2);
                for pairs_len in sizes(&[entries, pieces, 2 * n]) {
                    agree::icfl(side, &word, &answers, work_len, pairs_len, &mut random);
                }
                let short_and_enough = |needed: usize| [0, needed.saturating_sub(1), needed];
                for pairs_len in short_and_enough(entries).into_iter().chain([pieces]) {
                    for breaks_len in short_and_enough(5 * answers.breaks.len()) {
                        agree::icfl_with_breaks(side, &word, &answers, [work_len, pairs_len, breaks_len], &mut random);
                    }
                }
            }
            for len in sizes(&[answers.cfl_in.len(), n]) {
                agree::cfl_in(side, &word, &answers, len, &mut random);
                agree::lyndon_table(side, &word, &answers, len, &mut random);
            }
            for len in sizes(&[3 * answers.runs.len(), n]) {
                agree::runs(side, &word, &answers, len, &mut random);
            }
        }
    }
}

/// Every range and every two starts about a short record; far places and refused records beside them.
#[test]
fn ranges_and_starts() {
    let mut random = Random::new(0x5eed_0023);
    let far = [usize::MAX, usize::MAX - 1, usize::MAX / 2 + 1, 1 << 32, (1 << 32) + 2, 1 << 16, (1 << 16) + 2];
    for word in ["", "a", "ba", "aba", "bbab"] {
        let near: Vec<usize> = (0..=word.len() + 2).collect();
        let places: Vec<usize> = near.iter().copied().chain(far).collect();
        for &first in &places {
            for &end in &places {
                for &start in &places {
                    for &other in &places {
                        for side in BOTH {
                            agree::compare_suffixes(side, word.as_bytes(), [first, end], [start, other], &mut random);
                        }
                    }
                }
            }
        }
    }
    for (word, _) in records() {
        let n = word.len();
        for range in [[0, n], [0, n + 1], [0, 0], [n, n], [n / 2, n], [0, n / 2], [n, 0]] {
            for starts in [[0, 0], [0, n / 2], [n / 2, 0], [0, n], [n, 0], [n.saturating_sub(1); 2]] {
                agree::compare_suffixes(&VERIFIED, &word, range, starts, &mut random);
            }
        }
    }
}

/// Every list of up to 6 entries from 0 to 4 for records of up to 4 letters, with a number about its pairs, the first past them, and
/// the largest.
#[test]
fn short_lists() {
    let mut random = Random::new(0x5eed_0024);
    for length in 0..=4 {
        let word = vec![7; length];
        for list in (0..=6).flat_map(|count| all_words(5, count)) {
            let list: Vec<u16> = list.iter().map(|&letter| (letter - b'a') as u16).collect();
            let number = random.below(list.len() / 2 + 2);
            for side in BOTH {
                for number in [number, list.len() / 2, usize::MAX] {
                    agree::factor_at(side, &word, &list, number, &mut random);
                }
                agree::summarize(side, &word, &list, &mut random);
            }
        }
    }
}

/// Every division of records of up to 9 letters, with one count at its boundaries, the others anywhere between theirs; an entry too
/// few, which leaves a lone end, and one too many. Line 7 takes a count from 1 to its part's length, whatever the strict cut has.
#[test]
fn counts_and_odd_lists() {
    fn expect(word: &[u8], list: &[u16], refused: bool, random: &mut Random) {
        assert_eq!(promise::summarize(word.len(), list).err(), refused.then_some(7));
        for side in BOTH {
            agree::summarize(side, word, list, random);
            for number in 0..=list.len() {
                agree::factor_at(side, word, list, number, random);
            }
        }
    }
    let mut random = Random::new(0x5eed_0026);
    for length in 1..=9 {
        let word = vec![b'a'; length];
        for ends in all_divisions(length) {
            let list = with_counts(&ends, &mut random);
            expect(&word, &list, false, &mut random);
            for (k, (from, end)) in parts(&ends).into_iter().enumerate() {
                let most = end - from;
                for (count, refused) in [(0, true), (1, false), (most, false), (most + 1, true), (65_535, true)] {
                    let mut list = list.clone();
                    list[2 * k + 1] = count;
                    expect(&word, &list, refused, &mut random);
                }
            }
            expect(&word, &list[..list.len() - 1], true, &mut random);
            for entry in [1, length as u16, length as u16 + 1] {
                expect(&word, &[&list[..], &[entry]].concat(), true, &mut random);
            }
        }
    }
}

/// Lists with one fault at the end or the count of their first, a middle or their last pair, beside records and numbers at their
/// boundaries.
#[test]
fn long_lists() {
    let mut random = Random::new(0x5eed_0025);
    for (word, _) in records() {
        let n = word.len();
        let last = n.min(65_535) as u16;
        let every: Vec<u16> = (1..=last).flat_map(|end| [end, 1]).collect();
        let mut lists =
            vec![vec![], vec![last], vec![last, 0], vec![last, 1], vec![last, last], vec![last, last.wrapping_add(1)]];
        lists.extend([vec![0, 1, last, 1], vec![last, 1, last, 1], vec![last; 3], vec![65_535, 1], every.clone()]);
        for pair in [0, every.len() / 4, (every.len() / 2).saturating_sub(1)] {
            let end = [0, 1, last, last.wrapping_add(1), last.wrapping_sub(1), 65_535].map(|entry| (2 * pair, entry));
            for (place, entry) in end.into_iter().chain([0, 2, 65_535].map(|entry| (2 * pair + 1, entry))) {
                let mut list = every.clone();
                if place < list.len() {
                    list[place] = entry;
                }
                lists.push(list);
            }
        }
        for list in lists {
            for number in [0, list.len() / 4, (list.len() / 2).saturating_sub(1), list.len() / 2, usize::MAX] {
                agree::factor_at(&VERIFIED, &word, &list, number, &mut random);
            }
            agree::summarize(&VERIFIED, &word, &list, &mut random);
        }
    }
}
