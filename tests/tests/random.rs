//! Pseudo-random words of every kind, from fixed seeds. Words of up to 200 letters go against the definitions, longer ones against
//! the peer, which is held to the definitions on the others.
use metsroeb::{Break, Factor, Factors, Fate, Run};
use metsroeb_tests::agree::{self, Answers};
use metsroeb_tests::reference::{self, SEPARATOR};
use metsroeb_tests::words::{repeating, Random, KINDS};
use metsroeb_tests::{BOTH, VERIFIED};

/// `each` words of each kind, of `least` to `most` letters asked for.
fn words(each: usize, least: usize, most: usize, random: &mut Random, mut with: impl FnMut(Vec<u8>, &mut Random)) -> usize {
    let mut count = 0;
    for (_, make) in KINDS {
        for _ in 0..each {
            let length = least + random.below(most + 1 - least);
            let word = make(random, length);
            assert!(!word.is_empty() && word.len() <= length);
            with(word, random);
            count += 1;
        }
    }
    count
}

fn against_definitions(seed: u64, each: usize, least: usize, most: usize) -> usize {
    words(each, least, most, &mut Random::new(seed), |word, random| {
        let answers = Answers::by_definition(&word);
        assert!(reference::is_cfl_in(&word, &answers.cfl_in));
        for side in BOTH {
            agree::all(side, &word, &answers, random);
        }
    })
}

#[test]
fn short_words() {
    assert_eq!(against_definitions(0x5eed_0011, 5_700, 1, 16), 62_700);
}

#[test]
fn short_words_to_32() {
    assert_eq!(against_definitions(0x5eed_0012, 4_900, 12, 32), 53_900);
}

#[test]
fn words_to_200() {
    assert_eq!(against_definitions(0x5eed_0013, 80, 33, 200), 880);
}

#[test]
fn long_words() {
    let count = words(490, 200, 4096, &mut Random::new(0x5eed_0014), |word, random| {
        agree::all(&VERIFIED, &word, &Answers::by_peer(&word), random);
    });
    assert_eq!(count, 5_390);
}

/// Every start of a long word with every other near it, and over many ranges.
#[test]
fn comparisons_in_long_words() {
    words(12, 1000, 4096, &mut Random::new(0x5eed_0015), |word, random| {
        for _ in 0..200 {
            let n = word.len();
            let (start, end) = (random.below(n), 1 + random.below(n));
            let other = (start + 1 + random.below(12)) % n;
            let first = random.below(start.min(other) + 1);
            agree::compare_suffixes(&VERIFIED, &word, [first, end], [start, other], random);
        }
    });
}

/// Words of every kind and words of repetitions, of up to 4,096 letters, at times with marks: the repetitions are those of the
/// definition, and fewer than the bytes.
#[test]
fn repetitions_in_long_words() {
    let mut random = Random::new(0x5eed_0019);
    let mut both = |each, least, most| {
        let check = |mut word: Vec<u8>, random: &mut Random| {
            for _ in 0..random.below(4) / 2 * random.below(4) {
                let place = random.below(word.len());
                word[place] = SEPARATOR;
            }
            let answers = Answers { runs: reference::runs(&word), ..Answers::NONE };
            assert!(answers.runs.len() < word.len());
            let needed = 3 * answers.runs.len();
            for side in BOTH {
                for runs_len in [needed.saturating_sub(1), needed, needed + 1 + random.below(9)] {
                    agree::runs(side, &word, &answers, runs_len, random);
                }
            }
        };
        words(each, least, most, &mut random, check);
        for _ in 0..10 * each {
            let length = least + random.below(most + 1 - least);
            check(repeating(&mut random, length), &mut random);
        }
    };
    both(1000, 1, 40);
    both(100, 41, 400);
    both(6, 401, 4096);
    both(1, 4095, 4096);
}

/// What holds of the repetitions of any record: with the letters turned over they are the same; read backwards they are mirrored; those
/// of two records with a mark between them are those of the one and those of the other.
#[test]
fn repetitions_turned_over() {
    fn runs(word: &[u8]) -> Vec<Run> {
        VERIFIED.runs(word, &mut vec![0; 3 * word.len()]).unwrap().collect()
    }
    let mut random = Random::new(0x5eed_001a);
    let mut one = vec![b'a'];
    for _ in 0..3000 {
        let length = 1 + random.below(2000);
        let word = repeating(&mut random, length);
        let (n, found) = (word.len() as u16, runs(&word));
        let turned: Vec<u8> = word.iter().map(|&letter| 254 - letter).collect();
        assert_eq!(runs(&turned), found);
        let backwards: Vec<u8> = word.iter().rev().copied().collect();
        let mirrored = found.iter().map(|run| Run { first: n - run.end, end: n - run.first, ..*run });
        let mut mirrored: Vec<Run> = mirrored.collect();
        mirrored.sort_by_key(|run| (run.first, run.period));
        assert_eq!(runs(&backwards), mirrored);
        let behind = one.len() as u16 + 1;
        let moved = found.into_iter().map(|run| Run { first: run.first + behind, end: run.end + behind, ..run });
        let beside: Vec<Run> = runs(&one).into_iter().chain(moved).collect();
        assert_eq!(runs(&[&one[..], &[SEPARATOR], &word].concat()), beside);
        one = word;
    }
}

/// What requests 102 and 103 say of the breaks of any record: the steps of a stretch follow one another, the letters and numbers are
/// those of the record and of its ends, and the ends are the kept breaks, the ends of marks and the ends of stretches.
#[test]
fn breaks_and_ends() {
    words(650, 1, 4096, &mut Random::new(0x5eed_0017), |word, _| {
        let n = word.len();
        let (mut work, mut pairs, mut breaks) = (vec![0; 3 * n], vec![0; 2 * n], vec![0; 5 * n]);
        let (pairs, breaks) = VERIFIED.icfl_with_breaks(&word, &mut work, &mut pairs, &mut breaks).unwrap();
        let ends: Vec<u16> = Factors::read(pairs).map(|factor| factor.end).collect();
        let is_mark = |place: usize| word[place] == SEPARATOR;
        let mut first_of = vec![0; n]; // of the stretch of a place
        for i in 1..n {
            first_of[i] = if is_mark(i - 1) { i } else { first_of[i - 1] };
        }
        let (mut last, mut is_end) = (0, vec![false; n + 1]);
        for Break { place, begun, border, fate } in breaks {
            let [place, begun, border] = [place, begun, border].map(usize::from);
            assert!(begun == first_of[place].max(last) && begun < place && !is_mark(place));
            last = place;
            match fate {
                Fate::Kept(a, b) => {
                    assert!([begun, place].map(|from| word[from + border]) == [a, b] && a < b && b < SEPARATOR);
                    is_end[place] = true;
                }
                Fate::Joined(shortfall) => {
                    let next = ends.partition_point(|&end| usize::from(end) < place);
                    let end = usize::from(ends[next]);
                    assert!(place < end && usize::from(shortfall) + (end - place) == border);
                }
            }
        }
        let wanted = (1..=n).filter(|&i| is_end[i] || i == n || is_mark(i) || is_mark(i - 1)).map(|i| i as u16);
        assert!(wanted.eq(ends));
    });
}

/// What request 108 says of the counts of any record: they add up to the length of the strict list, of which each piece has the part
/// that it has as a record by itself. Both cuts give the same list, and the reader and the summary take it.
#[test]
fn counts_and_strict_ends() {
    let mut more_than_one = 0;
    words(650, 1, 4096, &mut Random::new(0x5eed_001b), |word, _| {
        let n = word.len();
        let (mut work, mut pairs, mut same, mut breaks) = (vec![0; 3 * n], vec![0; 2 * n], vec![0; 2 * n], vec![0; 5 * n]);
        let pairs = VERIFIED.icfl(&word, &mut work, &mut pairs).unwrap();
        assert_eq!(VERIFIED.icfl_with_breaks(&word, &mut work, &mut same, &mut breaks).unwrap().0, pairs);
        let mut alone = Vec::new(); // the strict ends of the pieces by themselves, in the record's places
        for (number, Factor { end, anti_lyndon }) in Factors::read(pairs).enumerate() {
            let from = alone.last().map_or(0, |&end: &u16| end.into());
            let piece = VERIFIED.factor_at(&word, pairs, number).unwrap();
            assert_eq!(piece, &word[from..end.into()]);
            let (mut strict, from) = (vec![0; piece.len()], from as u16);
            let strict = VERIFIED.cfl_in(piece, &mut strict).unwrap();
            assert_eq!(strict.len(), anti_lyndon.into());
            alone.extend(strict.iter().map(|&end| from + end));
            more_than_one += usize::from(anti_lyndon > 1);
        }
        assert_eq!(VERIFIED.cfl_in(&word, &mut vec![0; n]), Ok(&alone[..]));
        let sum: usize = Factors::read(pairs).map(|factor| usize::from(factor.anti_lyndon)).sum();
        assert_eq!(sum, alone.len());
        assert_eq!(VERIFIED.summarize(&word, pairs).map(|summary| summary.count.into()), Ok(Factors::read(pairs).len()));
    });
    assert!(more_than_one > 10_000, "{more_than_one}");
}

/// The tests reach what they are meant to reach: breaks that are joined, also one inside another, and behind a mark.
#[test]
fn joined_breaks_are_joined() {
    let joins_of = |kind, seed| {
        let (_, make) = KINDS.into_iter().find(|(name, _)| *name == kind).unwrap();
        let mut random = Random::new(seed);
        let words = (0..500).map(move |_| {
            let length = 33 + random.below(168);
            make(&mut random, length)
        });
        words.map(|word| {
            let (_, breaks) = reference::icfl_with_breaks(&word);
            let joined = breaks.into_iter().filter(|at| matches!(at.fate, Fate::Joined(_)));
            joined.map(|at| word[..usize::from(at.place)].contains(&SEPARATOR)).collect::<Vec<_>>()
        })
    };
    let alone: Vec<_> = joins_of("joined breaks", 0x5eed_0016).map(|joins| joins.len()).collect();
    let more_than = |least| alone.iter().filter(|&&joins| joins > least).count();
    assert!(more_than(0) > 400 && more_than(1) > 200, "{} {}", more_than(0), more_than(1));
    let behind = joins_of("stretches", 0x5eed_0018).filter(|joins| joins.contains(&true)).count();
    assert!(behind > 200, "{behind}");
}
