//! The comparison, and how far two words agree. It reads a word of eight bytes where eight remain on both sides.
use super::plain::check_record;

/// The words from the two starts to the end of the range.
fn words_in_range(record: &[u8], first: usize, end: usize, start: usize, other: usize) -> Result<(&[u8], &[u8]), u8> {
    check_record(record)?;
    if first >= end || end > record.len() {
        return Err(5);
    }
    if start < first || start >= end || other < first || other >= end {
        return Err(6);
    }
    Ok((&record[start..end], &record[other..end]))
}

/// The sign, and how many leading letters are equal.
pub fn compare_suffixes(record: &[u8], first: usize, end: usize, start: usize, other: usize) -> Result<(i8, u16), u8> {
    let (x, y) = words_in_range(record, first, end, start, other)?;
    let common = common_length(x, y);
    let sign = match (x.get(common), y.get(common)) {
        (Some(a), Some(b)) if a > b => -1,
        (Some(_), Some(_)) => 1,
        _ => x.len().cmp(&y.len()) as i8,
    };
    Ok((sign, common as u16))
}

/// How many leading letters of two words are equal. The trailing zero bits of the exclusive or belong to the equal letters before the
/// first difference, eight bits to each.
pub fn common_length(x: &[u8], y: &[u8]) -> usize {
    let mut common = 0;
    for (a, b) in x.as_chunks().0.iter().zip(y.as_chunks().0) {
        let differing = u64::from_le_bytes(*a) ^ u64::from_le_bytes(*b);
        if differing != 0 {
            return common + differing.trailing_zeros() as usize / 8;
        }
        common += 8;
    }
    while common < x.len() && common < y.len() && x[common] == y[common] {
        common += 1;
    }
    common
}
