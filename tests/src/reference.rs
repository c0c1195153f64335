//! The answers, by paper 01's definitions and the requests' sentences and nothing else: for short records.
use metsroeb::{Break, Extension, Fate, Run, Summary};
use std::cmp::Ordering;

/// The byte that is a mark, and no level.
pub const SEPARATOR: u8 = 255;

/// The stretches between neighbouring marks or the record's edges, from left to right, each with its first place. Some may be
/// empty. All but the first follow a mark.
fn stretches(record: &[u8]) -> impl Iterator<Item = (usize, &[u8])> {
    let mut next = 0;
    record.split(|&letter| letter == SEPARATOR).map(move |stretch| {
        let from = next;
        next += stretch.len() + 1;
        (from, stretch)
    })
}

/// The inverse order: a proper prefix comes first, and at a first difference the larger byte.
pub fn inverse_order(x: &[u8], y: &[u8]) -> Ordering {
    for i in 0.. {
        match (x.get(i), y.get(i)) {
            (None, None) => return Ordering::Equal,
            (None, Some(_)) => return Ordering::Less,
            (Some(_), None) => return Ordering::Greater,
            (Some(a), Some(b)) if a != b => return b.cmp(a),
            _ => {}
        }
    }
    unreachable!()
}

/// How many leading bytes of two words are equal: the places, from the first on, at which both have a byte and the same.
pub fn common_length(x: &[u8], y: &[u8]) -> usize {
    (0..).take_while(|&i| x.get(i).is_some() && x.get(i) == y.get(i)).count()
}

/// Nonempty, and greater than each nonempty proper suffix. (The order of slices is the natural order.)
pub fn is_inverse_lyndon(word: &[u8]) -> bool {
    !word.is_empty() && (1..word.len()).all(|i| word > &word[i..])
}

/// Nonempty, and before each nonempty proper suffix in the inverse order.
pub fn is_anti_lyndon(word: &[u8]) -> bool {
    !word.is_empty() && (1..word.len()).all(|i| inverse_order(word, &word[i..]) == Ordering::Less)
}

/// Of a word without marks: L is the shortest nonempty prefix that is not inverse Lyndon; it is r a u r b with a < b and the
/// shortest r.
pub fn find_extension(word: &[u8]) -> Extension {
    let Some(failing) = (1..=word.len()).find(|&l| !is_inverse_lyndon(&word[..l])) else { return Extension::InverseLyndon };
    let last = failing - 1;
    let border = (0..failing)
        .find(|&r| 2 * r + 2 <= failing && word[..r] == word[last - r..last] && word[r] < word[last])
        .expect("a failing prefix is r a u r b");
    Extension::Failing { failing, prefix: last - border, border }
}

/// The piece cut, by its recursion, of a word without marks that begins at the place `begun` of a record: the lengths of the
/// pieces, and the breaks in the record's places.
fn pieces(word: &[u8], begun: usize) -> (Vec<usize>, Vec<Break>) {
    let Extension::Failing { prefix, border, .. } = find_extension(word) else { return (vec![word.len()], vec![]) };
    let place = begun + prefix;
    let (mut pieces, mut breaks) = pieces(&word[prefix..], place);
    let fate = if pieces[0] <= border {
        let shortfall = border - pieces[0];
        pieces[0] += prefix;
        Fate::Joined(shortfall as u16)
    } else {
        pieces.insert(0, prefix);
        Fate::Kept(word[border], word[prefix + border])
    };
    breaks.insert(0, Break { place: place as u16, begun: begun as u16, border: border as u16, fate });
    (pieces, breaks)
}

/// The ends of the piece cut, and its breaks: each mark is a piece, each nonempty stretch is cut as a record by itself.
fn ends_and_breaks(record: &[u8]) -> (Vec<u16>, Vec<Break>) {
    let (mut ends, mut breaks) = (Vec::new(), Vec::new());
    for (mut end, stretch) in stretches(record) {
        if end > 0 {
            ends.push(end as u16);
        }
        if stretch.is_empty() {
            continue;
        }
        let (pieces, considered) = pieces(stretch, end);
        ends.extend(pieces.into_iter().map(|length| {
            end += length;
            end as u16
        }));
        breaks.extend(considered);
    }
    (ends, breaks)
}

/// The piece cut, and its breaks. Request 108: "Each entry of the piece cut becomes two numbers, the end and the number of strict
/// pieces inside", which is how many of the strict ends lie after the piece before and not after the end.
pub fn icfl_with_breaks(record: &[u8]) -> (Vec<u16>, Vec<Break>) {
    let ((ends, breaks), strict_ends) = (ends_and_breaks(record), cfl_in(record));
    let inside = |from, end| strict_ends.iter().filter(|&&strict| from < strict && strict <= end).count() as u16;
    let pairs = parts(&ends).into_iter().flat_map(|(from, end)| [end, inside(from, end)]).collect();
    (pairs, breaks)
}

/// The piece cut.
pub fn icfl(record: &[u8]) -> Vec<u16> {
    icfl_with_breaks(record).0
}

/// Whether the list of ends divides the record into marks and anti-Lyndon words without marks, each of these equal to the next or
/// after it in the inverse order, where neither is a mark.
pub fn is_cfl_in(record: &[u8], ends: &[u16]) -> bool {
    let starts = [0].iter().chain(ends);
    let parts: Vec<&[u8]> = starts.zip(ends).map(|(&from, &to)| &record[from as usize..to as usize]).collect();
    let is_mark = |part: &[u8]| part == [SEPARATOR];
    ends.last().copied().unwrap_or(0) as usize == record.len()
        && parts.iter().all(|part| is_mark(part) || !part.contains(&SEPARATOR) && is_anti_lyndon(part))
        && parts.windows(2).all(|pair| is_mark(pair[0]) || is_mark(pair[1]) || inverse_order(pair[0], pair[1]) != Ordering::Less)
}

/// The ends of the strict cut: of each mark, and of the longest anti-Lyndon prefix of what is left of a stretch. `is_cfl_in` says
/// whether that is right.
pub fn cfl_in(record: &[u8]) -> Vec<u16> {
    let mut ends = Vec::new();
    for (from, stretch) in stretches(record) {
        if from > 0 {
            ends.push(from as u16);
        }
        let mut cut = 0;
        while cut < stretch.len() {
            cut += longest_anti_lyndon(&stretch[cut..]);
            ends.push((from + cut) as u16);
        }
    }
    ends
}

fn longest_anti_lyndon(word: &[u8]) -> usize {
    (1..=word.len()).rev().find(|&l| is_anti_lyndon(&word[..l])).expect("a letter is one")
}

/// The start table: 1 for a mark, the longest anti-Lyndon prefix of what is left of the stretch for every other place.
pub fn lyndon_table(record: &[u8]) -> Vec<u16> {
    let mut lengths = Vec::new();
    for (from, stretch) in stretches(record) {
        if from > 0 {
            lengths.push(1);
        }
        lengths.extend((0..stretch.len()).map(|i| longest_anti_lyndon(&stretch[i..]) as u16));
    }
    lengths
}

fn has_period(word: &[u8], period: usize) -> bool {
    word[period..] == word[..word.len() - period]
}

/// Whether these are a maximal repetition of the record, by request 107: no mark in it; the period is the smallest one and fits at least
/// twice; no byte but a mark, which belongs to none, can be added on either side with the period kept.
pub fn is_run(record: &[u8], Run { first, end, period }: Run) -> bool {
    let [first, end, period] = [first, end, period].map(usize::from);
    let kept = |place: usize, other: usize| record[place] != SEPARATOR && record[place] == record[other];
    let Some(word) = record.get(first..end).filter(|word| !word.contains(&SEPARATOR)) else { return false };
    (1..=word.len() / 2).find(|&smallest| has_period(word, smallest)) == Some(period)
        && !(first > 0 && kept(first - 1, first - 1 + period))
        && !(end < record.len() && kept(end, end - period))
}

/// The maximal repetitions, by first place and then by period: from each place on, for each period that would not hold one place
/// earlier too, as far as it holds. `is_run` says whether that is right.
pub fn runs(record: &[u8]) -> Vec<Run> {
    let mut runs = Vec::new();
    for (from, stretch) in stretches(record) {
        for first in 0..stretch.len() {
            for period in 1..=(stretch.len() - first) / 2 {
                if first > 0 && stretch[first - 1] == stretch[first - 1 + period] {
                    continue;
                }
                let end = first + period + common_length(&stretch[first..], &stretch[first + period..]);
                if 2 * period <= end - first && !(1..period).any(|smaller| has_period(&stretch[first..end], smaller)) {
                    runs.push(Run { first: (from + first) as u16, end: (from + end) as u16, period: period as u16 });
                }
            }
        }
    }
    runs
}

/// First place and end of each part that a list of ends marks.
pub fn parts(ends: &[u16]) -> Vec<(u16, u16)> {
    (0..ends.len()).map(|k| (if k == 0 { 0 } else { ends[k - 1] }, ends[k])).collect()
}

/// The ends in a paired list: every other entry, from the first on.
pub fn ends_of(pairs: &[u16]) -> Vec<u16> {
    pairs.iter().step_by(2).copied().collect()
}

/// The summary of the factors that a paired list marks.
pub fn summary(pairs: &[u16]) -> Summary {
    let factors = parts(&ends_of(pairs));
    let longest = factors.iter().map(|(from, end)| end - from).max().unwrap_or(0);
    let from = factors.iter().rev().find(|(from, end)| end - from == longest).map_or(0, |f| f.0);
    let digits = |(from, end): &(u16, u16)| format!("{:b}", end - from).len();
    let bands = std::array::from_fn(|band| factors.iter().filter(|f| digits(f) == band + 1).count() as u16);
    Summary { count: factors.len() as u16, longest, from, bands }
}
