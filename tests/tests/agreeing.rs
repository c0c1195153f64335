//! What requests 104 and 106 say of how far two starts agree, and which comes first, through every implementation. A library that reads
//! words of eight bytes must not show it: neither where such a word ends, nor what stands in it behind a first difference or behind the
//! range. The repetitions of request 107 are found by such agreements.
use metsroeb::{Comparison, Run};
use metsroeb_tests::agree::Answers;
use metsroeb_tests::words::{Random, KINDS};
use metsroeb_tests::{agree, promise, reference, BOTH};
use std::cmp::Ordering;

/// The reference and every implementation give these numbers, and with the starts changed about the opposite order and the same number.
fn expect(word: &[u8], range: [usize; 2], [start, other]: [usize; 2], order: Ordering, common: usize, random: &mut Random) {
    for (starts, order) in [([start, other], order), ([other, start], order.reverse())] {
        let want = Comparison { order, common: common as u16 };
        assert_eq!(promise::compare_suffixes(word, range[0], range[1], starts[0], starts[1]), Ok(want));
        for side in BOTH {
            agree::compare_suffixes(side, word, range, starts, random);
        }
    }
}

/// "For equal starts that is the whole remainder."
#[test]
fn equal_starts() {
    let mut random = Random::new(0x5eed_0041);
    for n in (1..=24usize).chain([255, 256, 257, 4095, 4096]) {
        let word: Vec<u8> = (0..n).map(|_| random.draw() as u8).collect();
        for end in [1, n.div_ceil(2), n] {
            for start in (0..end).step_by(1 + n / 300).chain([end - 1]) {
                let first = random.below(start + 1);
                expect(&word, [first, end], [start, start], Ordering::Equal, end - start, &mut random);
            }
        }
    }
}

/// The later start has `left` bytes to the end of the range, the earlier one `gap` more, and the record goes on for `behind` bytes. One
/// byte is another one, so that the words differ at `place`, or none: then the range ends first, though the record may go on agreeing.
/// The starts lie at all places beside each other within a word of eight.
#[test]
fn ends_and_differences() {
    let mut random = Random::new(0x5eed_0042);
    let short = (1..=24).flat_map(|left| (1..=9).flat_map(move |gap| (0..8).map(move |start| (left, gap, start))));
    for (left, gap, start) in short.chain([(255, 1, 7), (256, 8, 0), (257, 3, 5), (1030, 5, 2)]) {
        for behind in [0, 1, 9] {
            let (other, end) = (start + gap, start + gap + left);
            let mut word = vec![b'b'; end + behind];
            let range = [random.below(start + 1), end];
            expect(&word, range, [start, other], Ordering::Greater, left, &mut random);
            for place in 0..left {
                for (letter, order) in [(b'a', Ordering::Less), (b'c', Ordering::Greater)] {
                    word[other + place] = letter;
                    expect(&word, range, [start, other], order, place, &mut random);
                }
                word[other + place] = b'b';
            }
        }
    }
}

/// A record in which `here` stands somewhere and `there`, as long, behind it, with the two places.
fn two_places(here: &[u8], there: &[u8], random: &mut Random) -> (Vec<u8>, [usize; 2]) {
    let mut any = |most: usize| (0..random.below(most + 1)).map(|_| random.draw() as u8).collect::<Vec<_>>();
    let (front, between) = (any(8), any(8));
    let starts = [front.len(), front.len() + here.len() + between.len()];
    ([&front[..], here, &between, there].concat(), starts)
}

/// The byte at `place` differs in a single bit. Those behind it are equal, or differ as far as two bytes can, for or against the order: the
/// first difference alone counts.
#[test]
fn first_of_several_differences() {
    let mut random = Random::new(0x5eed_0044);
    for (left, bit) in (1..=24).flat_map(|left| (0..8).map(move |bit| (left, bit))) {
        for place in 0..left {
            let mut here: Vec<u8> = (0..left).map(|_| random.draw() as u8).collect();
            let mut there = here.clone();
            there[place] ^= 1 << bit;
            let order = there[place].cmp(&here[place]);
            for later in [None, Some([0, 255]), Some([255, 0])] {
                if let Some(letters) = later {
                    here[place + 1..].fill(letters[0]);
                    there[place + 1..].fill(letters[1]);
                }
                let (word, starts) = two_places(&here, &there, &mut random);
                let range = [random.below(starts[0] + 1), word.len()];
                expect(&word, range, starts, order, place, &mut random);
            }
        }
    }
}

/// Every pair of different bytes, at a place of a word of eight and at one behind the last such word.
#[test]
fn all_bytes() {
    let mut random = Random::new(0x5eed_0045);
    for (a, b) in (0..=255).flat_map(|a| (0..a).map(move |b| (a, b))) {
        for (left, place) in [(8, random.below(8)), (15, 8 + random.below(7))] {
            let mut here: Vec<u8> = (0..left).map(|_| random.draw() as u8).collect();
            let mut there = here.clone();
            (here[place], there[place]) = (a, b);
            let (word, starts) = two_places(&here, &there, &mut random);
            expect(&word, [0, word.len()], starts, Ordering::Less, place, &mut random);
        }
    }
}

/// The two words agree on `left` bytes to the end of the range, on `more` behind it, and differ there. In the range the earlier start's
/// word is the longer one, and that is all.
#[test]
fn range_ends_before_the_difference() {
    let mut random = Random::new(0x5eed_0046);
    for (left, more) in (1..=24).flat_map(|left| (0..=17).map(move |more| (left, more))) {
        for bit in 0..8 {
            let here: Vec<u8> = (0..left + more + 1 + random.below(9)).map(|_| random.draw() as u8).collect();
            let mut there = here.clone();
            there[left + more] ^= 1 << bit;
            let (word, starts) = two_places(&here, &there, &mut random);
            let range = [random.below(starts[0] + 1), starts[1] + left];
            expect(&word, range, starts, Ordering::Greater, left, &mut random);
            let order = there[left + more].cmp(&here[left + more]);
            expect(&word, [range[0], word.len()], starts, order, left + more, &mut random);
        }
    }
}

/// Two equal halves with one or two bytes changed, of up to 4,096 bytes in all. The first change decides, or the end of the range before it.
#[test]
fn equal_halves() {
    let mut random = Random::new(0x5eed_0047);
    let mut seen = [[0; 8]; 2]; // by the place in a word of eight: ranges that ended, differences
    for _ in 0..4000 {
        let half = if random.below(2) == 0 { 1 + random.below(40) } else { 1 + random.below(2048) };
        let letters = [1, 2, 256][random.below(3)];
        let here: Vec<u8> = (0..half).map(|_| random.below(letters) as u8).collect();
        let mut there = here.clone();
        for _ in 0..1 + random.below(2) {
            there[random.below(half)] ^= 1 << random.below(8);
        }
        let word = [&here[..], &there].concat();
        let start = random.below(half);
        let (other, end) = (half + start, half + start + 1 + random.below(half - start));
        let range = [random.below(start + 1), end];
        let differing = (start..end - half).find(|&i| here[i] != there[i]);
        let (order, common) = match differing {
            Some(i) => (there[i].cmp(&here[i]), i - start),
            None => (Ordering::Greater, end - other),
        };
        expect(&word, range, [start, other], order, common, &mut random);
        seen[usize::from(differing.is_some())][common % 8] += 1;
    }
    assert!(seen.iter().flatten().all(|&count| count > 50), "{seen:?}");
}

/// "before the stretch ends for either of them": over a range the number is that to the record's end, or what the later start has left
/// in the range if that is less. Where it is not, the order is the same too.
#[test]
fn over_a_range_and_to_the_end() {
    let mut random = Random::new(0x5eed_0043);
    let (mut ended, mut differed) = (0, 0);
    for (_, make) in KINDS {
        for _ in 0..400 {
            let length = 2 + random.below(600);
            let word = make(&mut random, length);
            let n = word.len();
            let (start, near) = (random.below(n), 1 + random.below(12));
            let later = (start + near).min(n - 1);
            let end = later + 1 + random.below(n - later);
            for side in BOTH {
                let whole = side.compare_suffixes(&word, 0, n, start, later).unwrap();
                let part = side.compare_suffixes(&word, start, end, start, later).unwrap();
                let left = (end - later) as u16;
                assert_eq!(part.common, whole.common.min(left));
                if part.common < left {
                    assert_eq!(part, whole);
                    differed += 1;
                } else if part.common < whole.common {
                    ended += 1;
                }
            }
        }
    }
    assert!(ended > 1000 && differed > 1000, "{ended} {differed}");
}

/// A repetition of each period and of each length about twice as much, at all places of a word of eight. Beside it the record ends, or has
/// a mark or a byte that differs in a single bit from the one that would go on, and goes on agreeing behind that one.
#[test]
fn repetitions_end_anywhere() {
    let mut random = Random::new(0x5eed_0048);
    let other = |letter: u8, random: &mut Random| if random.below(2) == 0 { 255 } else { letter ^ 1 << random.below(8) };
    for (period, more) in (1..=19).flat_map(|period| (0..=18).map(move |more| (period, more))) {
        for first in 0..8 {
            let letters = [1, 2, 254][random.below(3)];
            let mut root: Vec<u8> = (0..period).map(|_| random.below(letters) as u8).collect();
            root[random.below(period)] = 254; // once, so that no smaller period fits
            let end = first + 2 * period + more;
            let mut word: Vec<u8> = root.iter().copied().cycle().take(end + 1 + random.below(20)).collect();
            word[end] = other(word[end], &mut random);
            if let Some(before) = first.checked_sub(1) {
                word[before] = other(word[before], &mut random);
            }
            if random.below(3) == 0 {
                word.truncate(end);
            }
            let answers = Answers { runs: reference::runs(&word), ..Answers::NONE };
            let [first, end, period] = [first, end, period].map(|number| number as u16);
            assert!(answers.runs.contains(&Run { first, end, period }));
            for side in BOTH {
                agree::runs(side, &word, &answers, 3 * answers.runs.len(), &mut random);
            }
        }
    }
}
