//! The maximal repetitions. The root of each is the longest Lyndon word at its place, in one of the two orders of the letters: one table
//! of these words serves both, since of the two words at a place one has a single letter.
use super::compare::common_length;
use super::plain::{check_record, SEPARATOR};
use metsroeb::MOST;

/// First place, end and period.
type Run = [u16; 3];

/// In the inverse order the larger letter comes first. Of two words of which one is a prefix of the other, the shorter one does.
fn comes_before(x: &[u8], y: &[u8], inverse: bool) -> bool {
    let at = common_length(x, y);
    match (x.get(at), y.get(at)) {
        (Some(a), Some(b)) => (a > b) == inverse,
        (end, _) => end.is_none() && x.len() < y.len(),
    }
}

/// From right to left, in the order in which the letter comes before the next other one: the place's word takes the words after it as
/// long as it comes before them. A longer word of the other order, which its first and last letter tell, has a single letter in this one.
fn find_longest(word: &[u8], longest: &mut [u16]) {
    let mut inverse = false;
    for i in (0..word.len()).rev() {
        if let Some(&next) = word.get(i + 1).filter(|&&next| next != word[i]) {
            inverse = word[i] > next;
        }
        let mut j = i + 1;
        while j < word.len() {
            let whole = longest[j] as usize;
            let (first, last) = (word[j], word[j + whole - 1]);
            let length = if first != last && (first > last) == inverse { whole } else { 1 };
            if !comes_before(&word[i..j], &word[j..j + length], inverse) {
                break;
            }
            j += length;
        }
        longest[i] = (j - i) as u16;
    }
}

/// The repetition whose root begins at the place, before which it has between one letter and a period of them. One that reaches the
/// end of the stretch has such a root in both orders: that of the inverse order counts.
fn run_at(word: &[u8], longest: &[u16], i: usize) -> Option<Run> {
    let (before, first) = (word[i - 1], word[i]);
    let period = if before == first { 1 } else { longest[i] as usize };
    if before != word[i + period - 1] {
        return None;
    }
    let backwards = word[..i].iter().rev().zip(word[..i + period].iter().rev());
    let left = backwards.take(period + 1).take_while(|(a, b)| a == b).count();
    if left > period {
        return None;
    }
    let right = common_length(&word[i..], &word[i + period..]);
    let end = i + period + right;
    if left + right < period || before > first && end == word.len() {
        return None;
    }
    Some([i - left, end, period].map(|number| number as u16))
}

/// All repetitions, stretch by stretch, in the order of their roots. The table is made anew for each stretch.
fn each_run(record: &[u8], longest: &mut [u16], mut emit: impl FnMut(Run)) {
    let mut from = 0;
    for word in record.split(|&letter| letter == SEPARATOR) {
        find_longest(word, longest);
        for [first, end, period] in (1..word.len()).filter_map(|i| run_at(word, longest, i)) {
            emit([first + from as u16, end + from as u16, period]);
        }
        from += word.len() + 1;
    }
}

/// Each is put to its place among those before it, from the back. There are fewer than letters, so they are counted first only for a
/// list that is shorter than that.
pub fn runs(record: &[u8], runs: &mut [u16]) -> Result<(u16,), u8> {
    check_record(record)?;
    let mut longest = [0; MOST];
    if runs.len() < 3 * (record.len() - 1) {
        let mut needed = 0;
        each_run(record, &mut longest, |_| needed += 1);
        if runs.len() < 3 * needed {
            return Err(4);
        }
    }
    let list = runs.as_chunks_mut().0;
    let mut count = 0;
    each_run(record, &mut longest, |run: Run| {
        let mut place = count;
        while place > 0 && [list[place - 1][0], list[place - 1][2]] > [run[0], run[2]] {
            list[place] = list[place - 1];
            place -= 1;
        }
        list[place] = run;
        count += 1;
    });
    Ok((count as u16,))
}
