//! Paper 01's table of refusals with the requests' lines, and what each call does to its buffers. Each function is given the right answer to its call, takes
//! the buffers as they were before it, and leaves them as they have to be after it. It gives the right answer, or the number of
//! the refusal.
use crate::reference::{common_length, ends_of, inverse_order, parts, summary, SEPARATOR};
use metsroeb::{Break, Comparison, Extension, Fate, Run, Summary};

fn refuse(no: u8, met: bool) -> Result<(), u8> {
    if met {
        return Err(no);
    }
    Ok(())
}

fn record(length: usize) -> Result<(), u8> {
    refuse(1, length == 0)?;
    refuse(2, length > 4096)
}

/// Paper 01's conditions, of the ends; "also an odd number of entries, or a count that is 0 or above its piece's length".
fn paired_list(length: usize, pairs: &[u16]) -> Result<(), u8> {
    let ends = ends_of(pairs);
    refuse(7, ends.is_empty())?;
    refuse(7, ends[0] == 0)?;
    refuse(7, (1..ends.len()).any(|k| ends[k - 1] >= ends[k]))?;
    refuse(7, ends[ends.len() - 1] as usize != length)?;
    refuse(7, pairs.len() % 2 == 1)?;
    let counts = pairs.iter().skip(1).step_by(2);
    refuse(7, counts.zip(parts(&ends)).any(|(&count, (from, end))| count == 0 || count > end - from))
}

/// There is no answer where the record holds a mark.
pub fn find_extension(word: &[u8], answer: Option<Extension>, work: &mut [u16]) -> Result<Extension, u8> {
    record(word.len())?;
    refuse(3, work.len() < word.len())?;
    refuse(9, word.contains(&SEPARATOR))?;
    work[..word.len()].fill(0);
    Ok(answer.expect("no mark"))
}

pub fn icfl<'a>(length: usize, answer: &'a [u16], work: &mut [u16], pairs: &mut [u16]) -> Result<&'a [u16], u8> {
    record(length)?;
    refuse(3, work.len() < 3 * length)?;
    work[..3 * length].fill(0);
    fill(answer, pairs)
}

pub fn icfl_with_breaks<'a>(
    length: usize,
    (pairs_answer, breaks_answer): (&'a [u16], &'a [Break]),
    work: &mut [u16],
    pairs: &mut [u16],
    breaks: &mut [u16],
) -> Result<(&'a [u16], &'a [Break]), u8> {
    record(length)?;
    refuse(3, work.len() < 3 * length)?;
    work[..3 * length].fill(0);
    refuse(4, pairs.len() < pairs_answer.len())?;
    refuse(4, breaks.len() < 5 * breaks_answer.len())?;
    fill(pairs_answer, pairs)?;
    fill(&entries(breaks_answer), breaks)?;
    Ok((pairs_answer, breaks_answer))
}

fn record_ends_of(length: usize, record_ends: &[u32]) -> Result<Vec<usize>, u8> {
    let ends: Vec<usize> = record_ends.iter().map(|&end| end as usize).collect();
    refuse(10, ends.is_empty())?;
    refuse(10, ends.len() > 64)?;
    refuse(10, (1..ends.len()).any(|k| ends[k] < ends[k - 1]))?;
    refuse(10, ends[ends.len() - 1] != length)?;
    Ok(ends)
}

/// For each record what a single call gives with what is left of the result buffer. `answers` has the pairs of each record that is cut.
pub fn icfl_batch<'a>(
    length: usize,
    record_ends: &[u32],
    answers: &'a [Vec<u16>],
    work: &mut [u16],
    pairs: &mut [u16],
) -> Result<Vec<Result<&'a [u16], u8>>, u8> {
    let (mut begun, mut used) = (0, 0);
    let mut replies = Vec::new();
    for (end, answer) in record_ends_of(length, record_ends)?.into_iter().zip(answers) {
        let reply = icfl(end - begun, answer, work, &mut pairs[used..]);
        used += reply.map_or(0, <[u16]>::len);
        begun = end;
        replies.push(reply);
    }
    Ok(replies)
}

/// Five entries for each break.
fn entries(breaks: &[Break]) -> Vec<u16> {
    let five = |&Break { place, begun, border, fate }: &Break| match fate {
        Fate::Kept(a, b) => [place, begun, border, a.into(), b.into()],
        Fate::Joined(shortfall) => [place, begun, border, 256, shortfall],
    };
    breaks.iter().flat_map(five).collect()
}

/// The strict cut and the start table.
pub fn filling<'a>(length: usize, answer: &'a [u16], result: &mut [u16]) -> Result<&'a [u16], u8> {
    record(length)?;
    fill(answer, result)
}

/// Three entries for each repetition.
pub fn runs<'a>(length: usize, answer: &'a [Run], entries: &mut [u16]) -> Result<&'a [Run], u8> {
    record(length)?;
    let numbers: Vec<u16> = answer.iter().flat_map(|run| [run.first, run.end, run.period]).collect();
    fill(&numbers, entries)?;
    Ok(answer)
}

fn fill<'a>(answer: &'a [u16], result: &mut [u16]) -> Result<&'a [u16], u8> {
    refuse(4, result.len() < answer.len())?;
    result[..answer.len()].copy_from_slice(answer);
    Ok(answer)
}

pub fn compare_suffixes(word: &[u8], first: usize, end: usize, start: usize, other: usize) -> Result<Comparison, u8> {
    record(word.len())?;
    refuse(5, first >= end || end > word.len())?;
    refuse(6, [start, other].iter().any(|&s| s < first || s >= end))?;
    let (x, y) = (&word[start..end], &word[other..end]);
    Ok(Comparison { order: inverse_order(x, y), common: common_length(x, y) as u16 })
}

/// First place and end.
pub fn factor_at(length: usize, pairs: &[u16], number: usize) -> Result<(u16, u16), u8> {
    record(length)?;
    paired_list(length, pairs)?;
    let parts = parts(&ends_of(pairs));
    refuse(8, number >= parts.len())?;
    Ok(parts[number])
}

pub fn summarize(length: usize, pairs: &[u16]) -> Result<Summary, u8> {
    record(length)?;
    paired_list(length, pairs)?;
    Ok(summary(pairs))
}
