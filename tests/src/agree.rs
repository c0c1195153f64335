//! One call on guarded buffers against the promise. Each function panics at the first difference.
use crate::lent::Lent;
use crate::reference::SEPARATOR;
use crate::words::{with_counts, Random};
use crate::{promise, reference, Side, PEER};
use metsroeb::{Break, Extension, Refusal, Run};
use std::fmt::Debug;

/// The right answers for a record.
pub struct Answers {
    /// None where it holds a mark: the test is refused.
    pub extension: Option<Extension>,
    /// Two entries for each factor.
    pub icfl: Vec<u16>,
    pub breaks: Vec<Break>,
    pub cfl_in: Vec<u16>,
    pub lyndon_table: Vec<u16>,
    pub runs: Vec<Run>,
}

impl Answers {
    /// For a record that is refused: none is looked at.
    pub const NONE: Answers = Answers {
        extension: None,
        icfl: Vec::new(),
        breaks: Vec::new(),
        cfl_in: Vec::new(),
        lyndon_table: Vec::new(),
        runs: Vec::new(),
    };

    pub fn by_definition(word: &[u8]) -> Answers {
        let (icfl, breaks) = reference::icfl_with_breaks(word);
        Answers {
            extension: (!word.contains(&SEPARATOR)).then(|| reference::find_extension(word)),
            icfl,
            breaks,
            cfl_in: reference::cfl_in(word),
            lyndon_table: reference::lyndon_table(word),
            runs: reference::runs(word),
        }
    }

    /// For words that are too long for the definitions.
    pub fn by_peer(word: &[u8]) -> Answers {
        let n = word.len();
        let (mut work, mut result, mut breaks, mut runs) = (vec![0; 3 * n], vec![0; 2 * n], vec![0; 5 * n], vec![0; 3 * n]);
        Answers {
            extension: PEER.find_extension(word, &mut work).ok(),
            icfl: PEER.icfl(word, &mut work, &mut result).unwrap().to_vec(),
            breaks: PEER.icfl_with_breaks(word, &mut work, &mut result, &mut breaks).unwrap().1.collect(),
            cfl_in: PEER.cfl_in(word, &mut result).unwrap().to_vec(),
            lyndon_table: PEER.lyndon_table(word, &mut result).unwrap().to_vec(),
            runs: PEER.runs(word, &mut runs).unwrap().collect(),
        }
    }
}

/// The answer, or the refusal's number, is as promised.
fn same<T: PartialEq + Debug>(what: &str, got: Result<T, Refusal>, want: Result<T, u8>) {
    let got = got.map_err(Refusal::number);
    if got != want {
        panic!("{what}: {got:?}, not {want:?}");
    }
}

/// A result is no copy: it begins at the place in what was lent.
fn begins<T>(what: &str, got: Result<&[T], Refusal>, place: *const T) {
    if got.is_ok_and(|part| part.as_ptr() != place) {
        panic!("{what}: the result is another part of the memory");
    }
}

fn shown(word: &[u8]) -> String {
    let text: String = word.iter().take(64).flat_map(|&b| std::ascii::escape_default(b)).map(char::from).collect();
    format!("`{text}`{} of length {}", if word.len() > 64 { ".." } else { "" }, word.len())
}

pub fn find_extension(side: &Side, word: &[u8], answers: &Answers, work_len: usize, random: &mut Random) {
    let what = format!("find_extension with {work_len} work entries on {}", shown(word));
    let mut record = Lent::record(word, random);
    let mut work = Lent::entries(work_len, random);
    let (record_before, mut work_after) = (record.clone(), work.clone());
    let got = side.find_extension(record.part(), work.part());
    same(&what, got, promise::find_extension(word, answers.extension, work_after.part()));
    work.expect(&work_after, &what);
    record.expect(&record_before, &what);
}

pub fn icfl(side: &Side, word: &[u8], answers: &Answers, work_len: usize, pairs_len: usize, random: &mut Random) {
    let what = format!("icfl with {work_len} work and {pairs_len} result entries on {}", shown(word));
    let mut record = Lent::record(word, random);
    let mut work = Lent::entries(work_len, random);
    let mut pairs = Lent::entries(pairs_len, random);
    let (record_before, mut work_after, mut pairs_after) = (record.clone(), work.clone(), pairs.clone());
    let place = pairs.part().as_ptr();
    let got = side.icfl(record.part(), work.part(), pairs.part());
    begins(&what, got, place);
    same(&what, got, promise::icfl(word.len(), &answers.icfl, work_after.part(), pairs_after.part()));
    pairs.expect(&pairs_after, &what);
    work.expect(&work_after, &what);
    record.expect(&record_before, &what);
}

/// `sizes` are the numbers of work entries, of entries for the pairs and of entries for the breaks.
pub fn icfl_with_breaks(side: &Side, word: &[u8], answers: &Answers, sizes: [usize; 3], random: &mut Random) {
    let what = format!("icfl_with_breaks with {sizes:?} entries on {}", shown(word));
    let mut record = Lent::record(word, random);
    let mut buffers = sizes.map(|size| Lent::entries(size, random));
    let (record_before, mut buffers_after) = (record.clone(), buffers.clone());
    let [work, pairs, breaks] = buffers.each_mut().map(Lent::part);
    let place = pairs.as_ptr();
    let got = side.icfl_with_breaks(record.part(), work, pairs, breaks);
    let considered: Vec<Break> = got.iter().flat_map(|(_, breaks)| breaks.clone()).collect();
    let got = got.map(|(pairs, _)| (pairs, &considered[..]));
    begins(&what, got.map(|(pairs, _)| pairs), place);
    let [work, pairs, breaks] = buffers_after.each_mut().map(Lent::part);
    same(&what, got, promise::icfl_with_breaks(word.len(), (&answers.icfl, &answers.breaks), work, pairs, breaks));
    for (buffer, after) in buffers.iter().zip(&buffers_after) {
        buffer.expect(after, &what);
    }
    record.expect(&record_before, &what);
}

/// The pairs of each record of a batch that can be cut, where the list of record ends says where it stands; none for the others.
pub fn batch_answers(bytes: &[u8], record_ends: &[u32]) -> Vec<Vec<u16>> {
    let starts = [0].iter().chain(record_ends);
    let records = starts.zip(record_ends).map(|(&from, &end)| bytes.get(from as usize..end as usize).unwrap_or(&[]));
    let answer = |word: &[u8]| match word.len() {
        1..=300 => reference::icfl(word),
        301..=4096 => PEER.icfl(word, &mut vec![0; 3 * word.len()], &mut vec![0; 2 * word.len()]).unwrap().to_vec(),
        _ => Vec::new(),
    };
    records.map(answer).collect()
}

/// `sizes` are the numbers of work entries and of entries for the pairs.
pub fn icfl_batch(side: &Side, bytes: &[u8], record_ends: &[u32], answers: &[Vec<u16>], sizes: [usize; 2], random: &mut Random) {
    let shown_ends = &record_ends[..record_ends.len().min(66)];
    let what = format!("icfl_batch with {sizes:?} entries, record ends {shown_ends:?}, on {}", shown(bytes));
    let (mut record, mut list) = (Lent::record(bytes, random), Lent::record_ends(record_ends, random));
    let mut buffers = sizes.map(|size| Lent::entries(size, random));
    let (record_before, list_before, mut buffers_after) = (record.clone(), list.clone(), buffers.clone());
    let [work, pairs] = buffers.each_mut().map(Lent::part);
    let mut place = pairs.as_ptr();
    let got = side.icfl_batch(record.part(), list.part(), work, pairs);
    let got = got.map(|batch| {
        assert_eq!((batch.len(), batch.iter().len()), (record_ends.len(), record_ends.len()), "{what}");
        let replies = batch.iter().inspect(|&reply| {
            begins(&what, reply, place);
            place = place.wrapping_add(reply.map_or(0, <[u16]>::len));
        });
        replies.map(|reply| reply.map_err(Refusal::number)).collect::<Vec<_>>()
    });
    let [work, pairs] = buffers_after.each_mut().map(Lent::part);
    same(&what, got, promise::icfl_batch(bytes.len(), record_ends, answers, work, pairs));
    for (buffer, after) in buffers.iter().zip(&buffers_after) {
        buffer.expect(after, &what);
    }
    list.expect(&list_before, &what);
    record.expect(&record_before, &what);
}

fn filling(
    name: &str,
    call: impl for<'a> FnOnce(&[u8], &'a mut [u16]) -> Result<&'a [u16], Refusal>,
    word: &[u8],
    answer: &[u16],
    len: usize,
    random: &mut Random,
) {
    let what = format!("{name} with {len} result entries on {}", shown(word));
    let mut record = Lent::record(word, random);
    let mut result = Lent::entries(len, random);
    let (record_before, mut result_after) = (record.clone(), result.clone());
    let place = result.part().as_ptr();
    let got = call(record.part(), result.part());
    begins(&what, got, place);
    same(&what, got, promise::filling(word.len(), answer, result_after.part()));
    result.expect(&result_after, &what);
    record.expect(&record_before, &what);
}

pub fn cfl_in(side: &Side, word: &[u8], answers: &Answers, ends_len: usize, random: &mut Random) {
    filling("cfl_in", |record, ends| side.cfl_in(record, ends), word, &answers.cfl_in, ends_len, random);
}

pub fn lyndon_table(side: &Side, word: &[u8], answers: &Answers, lengths_len: usize, random: &mut Random) {
    let answer = &answers.lyndon_table;
    filling("lyndon_table", |record, lengths| side.lyndon_table(record, lengths), word, answer, lengths_len, random);
}

pub fn runs(side: &Side, word: &[u8], answers: &Answers, runs_len: usize, random: &mut Random) {
    let what = format!("runs with {runs_len} result entries on {}", shown(word));
    let mut record = Lent::record(word, random);
    let mut entries = Lent::entries(runs_len, random);
    let (record_before, mut entries_after) = (record.clone(), entries.clone());
    let got = side.runs(record.part(), entries.part());
    let found: Vec<Run> = got.iter().cloned().flatten().collect();
    assert_eq!(got.iter().map(|runs| runs.len()).sum::<usize>(), found.len(), "{what}");
    same(&what, got.map(|_| &found[..]), promise::runs(word.len(), &answers.runs, entries_after.part()));
    entries.expect(&entries_after, &what);
    record.expect(&record_before, &what);
}

/// `range` is the first place and the end, `starts` the two starts.
pub fn compare_suffixes(side: &Side, word: &[u8], range: [usize; 2], starts: [usize; 2], random: &mut Random) {
    let what = format!("compare_suffixes over {range:?}, starts {starts:?}, on {}", shown(word));
    let mut record = Lent::record(word, random);
    let record_before = record.clone();
    let got = side.compare_suffixes(record.part(), range[0], range[1], starts[0], starts[1]);
    same(&what, got, promise::compare_suffixes(word, range[0], range[1], starts[0], starts[1]));
    record.expect(&record_before, &what);
}

pub fn factor_at(side: &Side, word: &[u8], list: &[u16], number: usize, random: &mut Random) {
    let what = format!("factor_at {number} of {} entries on {}", list.len(), shown(word));
    let mut record = Lent::record(word, random);
    let mut pairs = Lent::list(list, random);
    let (record_before, pairs_before) = (record.clone(), pairs.clone());
    let want = promise::factor_at(word.len(), list, number).map(|(first, end)| first as usize..end as usize);
    let place = record.part()[want.as_ref().map_or(0, |part| part.start)..].as_ptr();
    let got = side.factor_at(record.part(), pairs.part(), number);
    begins(&what, got, place);
    same(&what, got, want.map(|part| &word[part]));
    pairs.expect(&pairs_before, &what);
    record.expect(&record_before, &what);
}

pub fn summarize(side: &Side, word: &[u8], list: &[u16], random: &mut Random) {
    let what = format!("summarize of {} entries on {}", list.len(), shown(word));
    let mut record = Lent::record(word, random);
    let mut pairs = Lent::list(list, random);
    let (record_before, pairs_before) = (record.clone(), pairs.clone());
    let got = side.summarize(record.part(), pairs.part());
    same(&what, got, promise::summarize(word.len(), list));
    pairs.expect(&pairs_before, &what);
    record.expect(&record_before, &what);
}

/// All calls on a record that is accepted, with buffers of random sizes around those that are needed, and random places and lists.
pub fn all(side: &Side, word: &[u8], answers: &Answers, random: &mut Random) {
    let n = word.len();
    let about = |needed: usize, random: &mut Random| match random.below(4) {
        0 => needed,
        1 => needed.saturating_sub(1),
        _ => needed + random.below(10),
    };
    let work_len = about(n, random);
    find_extension(side, word, answers, work_len, random);
    let (work_len, pairs_len) = (about(3 * n, random), about(answers.icfl.len(), random));
    icfl(side, word, answers, work_len, pairs_len, random);
    icfl(side, word, answers, 3 * n + random.below(2), 2 * n, random);
    let sizes = [3 * n, answers.icfl.len(), 5 * answers.breaks.len()].map(|needed| about(needed, random));
    icfl_with_breaks(side, word, answers, sizes, random);
    icfl_with_breaks(side, word, answers, [3 * n + random.below(2), 2 * n, 5 * n], random);
    let ends_len = about(answers.cfl_in.len(), random);
    cfl_in(side, word, answers, ends_len, random);
    cfl_in(side, word, answers, n, random);
    let lengths_len = about(n, random);
    lyndon_table(side, word, answers, lengths_len, random);
    let runs_len = about(3 * answers.runs.len(), random);
    runs(side, word, answers, runs_len, random);
    runs(side, word, answers, 3 * n, random);

    let first = random.below(n);
    let end = first + 1 + random.below(n - first);
    for range in [[0, n], [first, end]] {
        let start = |random: &mut Random| range[0] + random.below(range[1] - range[0]);
        let starts = [start(random), start(random)];
        compare_suffixes(side, word, range, starts, random);
    }
    compare_suffixes(side, word, [random.below(n + 2), random.below(n + 2)], [random.below(n + 2), random.below(n + 2)], random);

    // the strict ends with any counts that are accepted; the same with an end or a count changed, or with a lone entry behind
    let strict = with_counts(&answers.cfl_in, random);
    let mut changed = strict.clone();
    let place = random.below(changed.len());
    match random.below(4) {
        0 => changed.push(random.below(n + 2) as u16),
        _ => changed[place] = changed[place].wrapping_add(random.below(5) as u16).wrapping_sub(2),
    }
    for list in [&answers.icfl, &strict, &changed] {
        factor_at(side, word, list, random.below(list.len() + 1), random);
        summarize(side, word, list, random);
    }
}
