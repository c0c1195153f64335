//! The calls that read a paired list.
use super::plain::check_record;
use super::raw::Summary;

/// Line 7. Gives the pairs.
fn check_pairs(entries: &[u16], length: usize) -> Result<&[[u16; 2]], u8> {
    let (pairs, []) = entries.as_chunks() else { return Err(7) };
    let mut last = 0;
    for &[end, count] in pairs {
        if end <= last || count == 0 || end - last < count {
            return Err(7);
        }
        last = end;
    }
    if last as usize != length {
        return Err(7);
    }
    Ok(pairs)
}

pub fn factor_at(record: &[u8], pairs: &[u16], number: usize) -> Result<(u16, u16), u8> {
    check_record(record)?;
    let pairs = check_pairs(pairs, record.len())?;
    let Some(&[end, _]) = pairs.get(number) else { return Err(8) };
    Ok((if number == 0 { 0 } else { pairs[number - 1][0] }, end))
}

pub fn summarize(record: &[u8], pairs: &[u16]) -> Summary {
    let mut summary = Summary { refusal: 0, count: 0, longest: 0, from: 0, bands: [0; 13] };
    let pairs = match check_record(record).and_then(|()| check_pairs(pairs, record.len())) {
        Ok(pairs) => pairs,
        Err(no) => {
            summary.refusal = no;
            return summary;
        }
    };
    let mut last = 0;
    for &[end, _] in pairs {
        let length = end - last;
        summary.count += 1;
        summary.bands[15 - length.leading_zeros() as usize] += 1;
        if summary.longest <= length {
            (summary.longest, summary.from) = (length, last);
        }
        last = end;
    }
    summary
}
