//! What requests 105 and 108 say of a card, a batch of records, through every implementation.
use metsroeb::Refusal;
use metsroeb_tests::agree::{self, batch_answers};
use metsroeb_tests::words::{all_words, batch_of, Random, RECORDS};
use metsroeb_tests::{promise, BOTH, VERIFIED};

/// Every implementation, with buffers of these sizes, does as promised.
fn expect(bytes: &[u8], record_ends: &[u32], sizes: &[[usize; 2]], random: &mut Random) {
    let answers = batch_answers(bytes, record_ends);
    for side in BOTH {
        for &sizes in sizes {
            agree::icfl_batch(side, bytes, record_ends, &answers, sizes, random);
        }
    }
}

/// What every implementation answers, with buffers filled with 7, and leaves in these.
#[allow(clippy::type_complexity)]
fn cut(
    bytes: &[u8],
    record_ends: &[u32],
    sizes: [usize; 2],
    mut with: impl FnMut(Result<Vec<Result<Vec<u16>, u8>>, u8>, Vec<u16>, Vec<u16>),
) {
    for side in BOTH {
        let [mut work, mut pairs] = sizes.map(|size| vec![7; size]);
        let got = side.icfl_batch(bytes, record_ends, &mut work, &mut pairs).map_err(Refusal::number);
        let got = got.map(|batch| batch.iter().map(|reply| reply.map(<[u16]>::to_vec).map_err(Refusal::number)).collect());
        with(got, work, pairs);
    }
}

/// Paper 01's records A to K as one card, with just enough entries: "Ends are counted within their own record."
#[test]
fn records_a_to_k() {
    let (bytes, record_ends) = batch_of(&RECORDS.map(|(record, ..)| record.as_bytes()));
    let packed = RECORDS.map(|(_, pairs, _)| pairs).concat();
    let mut answers = RECORDS.map(|(_, pairs, _)| Ok(pairs.to_vec())).to_vec();
    cut(&bytes, &record_ends, [3 * 17 + 1, packed.len()], |got, work, pairs| {
        assert_eq!(got, Ok(answers.clone()));
        assert_eq!((&work[..51], work[51], &pairs), (&[0; 51][..], 7, &packed));
    });
    // with one entry fewer the last record gets 4, and five entries stay
    answers[10] = Err(4);
    cut(&bytes, &record_ends, [3 * 17 + 1, packed.len() - 1], |got, _, pairs| {
        assert_eq!(got, Ok(answers.clone()));
        assert_eq!((&pairs[..36], &pairs[36..]), (&packed[..36], &[7; 5][..]));
    });
}

/// "A refused record uses none of it, and the next one is still tried": by 4, with a shorter one that fits behind it; by 3, 2 and 1.
#[test]
fn refused_records_among_others() {
    let long = vec![b'a'; 4097];
    let (bytes, record_ends) = batch_of(&[b"cbabacbac", b"abc", &long, b"", b"baba", b"cbabacaacbabacbac", b"ba", b"ab"]);
    // with 50 work entries record I, of 17 bytes, gets 3; `abc` needs six entries where five are left, `ab` four where one is
    let replies = [Ok(vec![5, 1, 9, 2]), Err(4), Err(2), Err(1), Ok(vec![4, 2]), Err(3), Ok(vec![2, 1]), Err(4)];
    cut(&bytes, &record_ends, [50, 9], |got, work, pairs| {
        assert_eq!(got, Ok(replies.to_vec()));
        assert_eq!((&work[..27], &work[27..], &pairs[..]), (&[0; 27][..], &[7; 23][..], &[5, 1, 9, 2, 4, 2, 2, 1, 7][..]));
    });
}

/// The work buffer is 0 as far as the longest record needs that was accepted or refused by 4, wherever it stands, and no further.
#[test]
fn work_by_the_longest_record() {
    let mut random = Random::new(0x5eed_0051);
    for (records, pairs_len, work_len, zeros) in [
        (&[&b"ba"[..], b"cbabacbac", b"ba"][..], 8, 40, 27),
        (&[b"cbabacbac", b"ba"], 6, 40, 27),
        (&[b"ba", b"cbabacbac"], 6, 40, 27),
        (&[b"ba", b"cbabacbac"], 5, 40, 27),        // refused by 4
        (&[b"cbabacbac", b"ba"], 3, 40, 27),        // refused by 4
        (&[b"ba", b"cbabacbac", b"bba"], 8, 26, 9), // refused by 3
        (&[b"abc", b"", b"abc"], 0, 40, 9),
        (&[b"", b""], 0, 40, 0),
        (&[b"a", b"a", b"a", b"a", b"a"], 10, 40, 3),
    ] {
        let (bytes, record_ends) = batch_of(records);
        cut(&bytes, &record_ends, [work_len, pairs_len], |_, work, _| {
            assert!(work[..zeros].iter().all(|&entry| entry == 0) && work[zeros..].iter().all(|&entry| entry == 7), "{work:?}");
        });
        expect(&bytes, &record_ends, &[[work_len, pairs_len]], &mut random);
    }
}

/// "64 places": 64 ends, 65 and more, also of empty records alone, and none.
#[test]
fn number_of_records() {
    let mut random = Random::new(0x5eed_0052);
    for count in [0, 1, 2, 63, 64, 65, 66, 128, 255, 256, 257, 320, 65_536, 65_537, 65_600] {
        for length in [0, 1, 3] {
            let bytes = b"cba".iter().cycle().take(length * count).copied().collect::<Vec<u8>>();
            let record_ends: Vec<u32> = (1..=count).map(|k| (k * length) as u32).collect();
            expect(&bytes, &record_ends, &[[9, 2 * count], [9, count], [2, 2 * count]], &mut random);
            cut(&bytes, &record_ends, [9, 2 * count], |got, work, pairs| {
                let untouched = work == vec![7; 9] && pairs == vec![7; 2 * count];
                match got {
                    Ok(replies) => assert!((1..=64).contains(&count) && replies.len() == count),
                    Err(number) => assert!(number == 10 && untouched && !(1..=64).contains(&count)),
                }
            });
        }
    }
}

/// Every list of up to four ends about the number of the bytes, with far ones whose lower 8 or 16 bits are near ones.
#[test]
fn short_lists() {
    let mut random = Random::new(0x5eed_0053);
    let mut accepted = 0;
    for length in 0..=3u32 {
        let bytes = &b"cab"[..length as usize];
        let mut ends: Vec<u32> = (0..=length + 1).collect();
        ends.extend([256 + length, 65_535, 65_536, 65_536 + length, u32::MAX]);
        for list in (0..=4).flat_map(|count| all_words(ends.len(), count)) {
            let list: Vec<u32> = list.iter().map(|&letter| ends[(letter - b'a') as usize]).collect();
            let sizes = [random.below(10), random.below(7)];
            let proper = !list.is_empty() && list.is_sorted() && *list.last().unwrap() == length;
            let answers = batch_answers(bytes, &list);
            let promised = promise::icfl_batch(bytes.len(), &list, &answers, &mut [7; 9], &mut [7; 6]);
            assert_eq!(promised.is_ok(), proper);
            accepted += u32::from(proper);
            expect(bytes, &list, &[sizes], &mut random);
        }
    }
    assert_eq!(accepted, 4 + (1 + 2 + 3 + 4) + (1 + 3 + 6 + 10) + (1 + 4 + 10 + 20));
}

/// "or a first end of 0": also the card of no bytes and one end.
#[test]
fn empty_records() {
    cut(b"", &[0], [3, 3], |got, work, pairs| {
        assert_eq!((got, work, pairs), (Ok(vec![Err(1)]), vec![7; 3], vec![7; 3]));
    });
    cut(b"ab", &[0, 0, 2, 2], [6, 5], |got, work, pairs| {
        assert_eq!(got, Ok(vec![Err(1), Err(1), Ok(vec![1, 1, 2, 1]), Err(1)]));
        assert_eq!((work, pairs), (vec![0; 6], vec![1, 1, 2, 1, 7]));
    });
    cut(b"ab", &[0], [6, 5], |got, work, pairs| assert_eq!((got, work, pairs), (Err(10), vec![7; 6], vec![7; 5])));
}

/// A fault at any place of a long list leaves everything, also the records before it, as it was.
#[test]
fn one_fault_in_a_long_list() {
    let mut random = Random::new(0x5eed_0054);
    let (bytes, proper) = batch_of(&[&b"cbabacbac"[..]; 64]);
    for place in 0..64 {
        for end in [0, 1, proper[place] - 1, proper[place] + 1, proper[place] + 9, proper[place] + 10, 576, 577, u32::MAX] {
            let mut record_ends = proper.clone();
            record_ends[place] = end;
            expect(&bytes, &record_ends, &[[60, 1152], [9, 5]], &mut random);
        }
    }
    for last in [575, 577, 0, 576 - 256, 576 + 65_536, u32::MAX] {
        let mut record_ends = proper.clone();
        record_ends[63] = last;
        cut(&bytes, &record_ends, [27, 256], |got, work, pairs| {
            assert_eq!((got, work, pairs), (Err(10), vec![7; 27], vec![7; 256]));
        });
    }
}

/// A card of one record: what the single call gives with the same buffers.
#[test]
fn one_record_is_the_single_call() {
    let mut random = Random::new(0x5eed_0055);
    for word in (0..=6).flat_map(|length| all_words(3, length)).chain([vec![b'a'; 4096], vec![b'a'; 4097], vec![b'a'; 65_537]]) {
        let n = word.len();
        let work_len = 3 * n;
        let sizes = [[work_len, 2 * n], [work_len.saturating_sub(1), 2 * n], [work_len + 2, 1], [work_len, 0], [work_len, n]];
        for [work_len, pairs_len] in sizes {
            cut(&word, &[n as u32], [work_len, pairs_len], |got, work, pairs| {
                let (mut single_work, mut single_pairs) = (vec![7; work_len], vec![7; pairs_len]);
                let single = VERIFIED.icfl(&word, &mut single_work, &mut single_pairs);
                assert_eq!(got, Ok(vec![single.map(<[u16]>::to_vec).map_err(Refusal::number)]));
                assert_eq!((work, pairs), (single_work, single_pairs));
            });
        }
    }
    expect(b"cbabacbac", &[9], &[[27, 4], [27, 3], [27, 2], [26, 4], [30, 18]], &mut random);
}

/// Long records among short ones; bytes, ends and used entries past 16 bits; records whose lengths are 0 to 16 bits.
#[test]
fn long_records() {
    let mut random = Random::new(0x5eed_0056);
    let over = |letters: usize, length: usize, random: &mut Random| (0..length).map(|_| random.below(letters) as u8).collect();
    for length in [4095, 4096, 4097, 65_535, 65_536, 65_537, 65_600, 70_000] {
        let long: Vec<u8> = over(3, length, &mut random);
        let marks = vec![255; length.min(4096)];
        let (bytes, record_ends) = batch_of(&[b"ba", &long, b"cbabacbac", b"", &marks, &long, b"ab"]);
        let enough = 2 * bytes.len();
        expect(&bytes, &record_ends, &[[3 * 4096 + 3, enough], [3 * 4096 - 1, enough], [27, 8]], &mut random);
    }
    let marks = [255; 4096];
    let mut records = vec![&marks[..]; 17];
    records.insert(16, b"ab");
    records.push(b"cbabacbac");
    let (bytes, record_ends) = batch_of(&records);
    let (all, enough) = (2 * (17 * 4096 + 4), 2 * bytes.len());
    expect(&bytes, &record_ends, &[[12_288, all], [12_288, all - 1], [12_300, enough], [12_287, enough]], &mut random);
    let full: Vec<Vec<u8>> = (0..64).map(|_| over(2, 4096, &mut random)).collect();
    let (bytes, record_ends) = batch_of(&full.iter().map(Vec::as_slice).collect::<Vec<_>>());
    expect(&bytes, &record_ends, &[[12_288, 2 * bytes.len()], [12_290, 40_000]], &mut random);
}
