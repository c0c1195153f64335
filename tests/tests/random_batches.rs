//! Pseudo-random cards, from fixed seeds, and the whole struct that the exported function returns for a card.
use metsroeb::{raw, MOST_RECORDS};
use metsroeb_tests::agree::{self, batch_answers};
use metsroeb_tests::words::{batch_of, Random, KINDS};
use metsroeb_tests::{promise, BOTH};

/// What the exported function returns.
fn raw_batch(bytes: &[u8], record_ends: &[u32], work: &mut [u16], pairs: &mut [u16]) -> raw::Batch {
    unsafe {
        raw::metsroeb_icfl_batch(
            bytes.as_ptr(),
            bytes.len(),
            record_ends.as_ptr(),
            record_ends.len(),
            work.as_mut_ptr(),
            work.len(),
            pairs.as_mut_ptr(),
            pairs.len(),
        )
    }
}

/// The same, as it has to be: a result of 0 in each place past the replies.
fn all_places(refusal: u8, replies: &[Result<&[u16], u8>]) -> raw::Batch {
    let reply = |found: Result<&[u16], u8>| raw::Reply {
        refusal: found.err().unwrap_or(0),
        count: found.map_or(0, |pairs| pairs.len() as u16 / 2),
    };
    raw::Batch { refusal, replies: std::array::from_fn(|k| reply(*replies.get(k).unwrap_or(&Ok(&[])))) }
}

/// Records of all kinds, some empty; tight buffers; some lists with a fault. Twice as many entries as bytes are always enough.
fn random_batches(rounds: usize, most_records: usize, most_bytes: usize, seed: u64) -> [usize; 11] {
    let mut random = Random::new(seed);
    let mut seen = [0; 11];
    for _ in 0..rounds {
        let count = 1 + random.below(most_records);
        let words: Vec<Vec<u8>> = (0..count)
            .map(|_| match random.below(10) {
                0 => vec![],
                _ => {
                    let (_, make) = KINDS[random.below(KINDS.len())];
                    let length = 1 + random.below(most_bytes);
                    make(&mut random, length)
                }
            })
            .collect();
        let (bytes, mut record_ends) = batch_of(&words.iter().map(Vec::as_slice).collect::<Vec<_>>());
        if random.below(6) == 0 {
            let place = random.below(count);
            let by = [1, 2, 256, 65_536, 1 << 24][random.below(5)];
            let end = record_ends[place];
            record_ends[place] = if random.below(2) == 0 { end.wrapping_add(by) } else { end.wrapping_sub(by) };
        }
        let answers = batch_answers(&bytes, &record_ends);
        let needed: usize = answers.iter().map(Vec::len).sum();
        let some = words[random.below(count)].len();
        let longest = words.iter().map(Vec::len).max().unwrap();
        let work_len = [3 * longest, 3 * longest + random.below(9), 3 * some, (3 * some).saturating_sub(1)][random.below(4)];
        let enough = 2 * bytes.len();
        let pairs_len = [enough, needed, needed.saturating_sub(1), random.below(needed + 1), needed / 2][random.below(5)];
        for side in BOTH {
            agree::icfl_batch(side, &bytes, &record_ends, &answers, [work_len, pairs_len], &mut random);
        }
        let [mut work, mut pairs] = [vec![0; work_len], vec![0; pairs_len]];
        let answer = raw_batch(&bytes, &record_ends, &mut work, &mut pairs);
        match promise::icfl_batch(bytes.len(), &record_ends, &answers, &mut work, &mut pairs) {
            Err(number) => {
                assert_eq!(answer, all_places(number, &[]));
                seen[number as usize] += 1;
            }
            Ok(replies) => {
                assert_eq!(answer, all_places(0, &replies));
                let refused = |reply: &Result<_, u8>| reply.err().unwrap_or(0);
                replies.iter().for_each(|reply| seen[refused(reply) as usize] += 1);
                assert!(pairs_len < enough || replies.iter().all(|reply| refused(reply) != 4));
                // a record behind one that was refused by 4 fits: counted in place 9
                let behind = replies.iter().skip_while(|reply| refused(reply) != 4).any(|reply| refused(reply) == 0);
                seen[9] += usize::from(behind);
            }
        }
    }
    seen
}

#[test]
fn random_short_records() {
    let seen = random_batches(20_000, 8, 12, 0x5eed_0057);
    assert!([0, 1, 3, 4, 9, 10].iter().all(|&k| seen[k] > 1000), "{seen:?}");
}

#[test]
fn random_records_to_100() {
    let seen = random_batches(1_500, 64, 100, 0x5eed_0058);
    assert!([0, 1, 3, 4, 9, 10].iter().all(|&k| seen[k] > 100), "{seen:?}");
}

#[test]
fn random_records_to_300() {
    let seen = random_batches(500, 12, 300, 0x5eed_005b);
    assert!([0, 1, 3, 4, 9, 10].iter().all(|&k| seen[k] > 50), "{seen:?}");
}

#[test]
fn random_long_records() {
    let seen = random_batches(250, 64, 4096, 0x5eed_0059);
    assert!([0, 1, 3, 4, 9, 10].iter().all(|&k| seen[k] > 10), "{seen:?}");
}

/// The whole struct: a result of 0 in the places past the last record, and in all of them beside 10.
#[test]
fn every_place_of_the_answer() {
    let mut random = Random::new(0x5eed_005a);
    for count in (0..=66).chain([128, 65_537]) {
        for broken in [false, true] {
            let bytes = b"cbabacbac".repeat(count);
            let mut record_ends: Vec<u32> = (1..=count).map(|k| 9 * k as u32).collect();
            if broken && count > 0 {
                record_ends[random.below(count)] += 10;
            }
            let [mut work, mut pairs] = [vec![7u16; 27], vec![7u16; 2 * count]];
            let got = raw_batch(&bytes, &record_ends, &mut work, &mut pairs);
            let reply = |k| if 2 * k + 2 <= count { Ok(&[5, 1, 9, 2][..]) } else { Err(4) };
            let replies: Vec<_> = (0..count).map(reply).collect();
            let proper = (1..=64).contains(&count) && !broken;
            let want = if proper { all_places(0, &replies) } else { all_places(10, &[]) };
            assert_eq!(got, want, "{count} records");
        }
    }
    assert_eq!((MOST_RECORDS, size_of::<raw::Batch>()), (64, 258));
}
