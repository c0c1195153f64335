//! The test, the cuts and the start table, with the library's checks, passes and buffers.
use super::raw::{Batch, Reply};
use metsroeb::{MOST, MOST_RECORDS};

/// A mark is a factor of every cut by itself. It is larger than every other letter, so a scan that does not begin with one ends
/// before it.
pub const SEPARATOR: u8 = 255;

pub fn check_record(record: &[u8]) -> Result<(), u8> {
    match record.len() {
        0 => Err(1),
        n if n > MOST => Err(2),
        _ => Ok(()),
    }
}

fn check_record_ends(ends: &[u32], length: usize) -> Result<(), u8> {
    match ends.last() {
        Some(&last) if ends.len() <= MOST_RECORDS && ends.is_sorted() && last as usize == length => Ok(()),
        _ => Err(10),
    }
}

/// What a scan finds: a letter larger than the one it meets, with p and r there; or that there is none before a mark or the end.
enum Scanned {
    Break { prefix: usize, border: usize },
    Falling { length: usize },
}

/// Scans with the border table, and walks down the borders at a break. The word does not begin with a mark.
fn scan(word: &[u8], table: &mut [u16]) -> Scanned {
    let (mut border, mut length) = (0, 1);
    while length < word.len() {
        let (new, met) = (word[length], word[border]);
        if met < new {
            if new == SEPARATOR {
                break;
            }
            while border > 0 {
                let next = table[border - 1] as usize;
                if new <= word[next] {
                    break;
                }
                border = next;
            }
            return Scanned::Break { prefix: length - border, border };
        }
        table[length - 1] = border as u16;
        border = if new == met { border + 1 } else { 0 };
        length += 1;
    }
    Scanned::Falling { length }
}

/// L, |p| and |r|, or 0 for each.
pub fn find_extension(record: &[u8], work: &mut [u16]) -> Result<(u16, u16, u16), u8> {
    check_record(record)?;
    let Some(work) = work.get_mut(..record.len()) else { return Err(3) };
    if record.contains(&SEPARATOR) {
        return Err(9);
    }
    let found = match scan(record, work) {
        Scanned::Break { prefix, border } => ((prefix + border + 1) as u16, prefix as u16, border as u16),
        Scanned::Falling { .. } => (0, 0, 0),
    };
    work.fill(0);
    Ok(found)
}

/// Each stretch in its part of the work buffer. Forward: the end of p and |r| of each break. Backward: the ends that are kept
/// gather before the stretch's end, where the borders stood; then they follow those before them. Gives the ends and the breaks.
fn cut<'a>(record: &[u8], work: &'a mut [u16]) -> (&'a [u16], &'a [[u16; 2]]) {
    let (table, rest) = work.split_at_mut(record.len());
    let breaks = rest.as_chunks_mut().0;
    let (mut from, mut count, mut broken) = (0, 0, 0);
    while from < record.len() {
        if record[from] == SEPARATOR {
            from += 1;
            table[count] = from as u16;
            count += 1;
            continue;
        }
        let (begun, before) = (from, broken);
        let end = loop {
            match scan(&record[from..], &mut table[begun..]) {
                Scanned::Break { prefix, border } => {
                    from += prefix;
                    breaks[broken] = [from as u16, border as u16];
                    broken += 1;
                }
                Scanned::Falling { length } => break from + length,
            }
        };
        let mut top = end - 1;
        table[top] = end as u16;
        for &[place, border] in breaks[before..broken].iter().rev() {
            if place + border < table[top] {
                top -= 1;
                table[top] = place;
            }
        }
        table.copy_within(top..end, count);
        count += end - top;
        from = end;
    }
    (&table[..count], &breaks[..broken])
}

/// Every piece ends where a factor of the strict cut does, so each piece is counted by itself.
fn write_pairs(record: &[u8], ends: &[u16], result: &mut [[u16; 2]]) {
    let mut from = 0;
    for (pair, &end) in result.iter_mut().zip(ends) {
        let mut count = 0;
        duval(&record[from..end as usize], |_| count += 1);
        *pair = [end, count];
        from = end as usize;
    }
}

/// Gives the number of pieces.
pub fn icfl(record: &[u8], work: &mut [u16], pairs: &mut [u16]) -> Result<(u16,), u8> {
    check_record(record)?;
    let Some(work) = work.get_mut(..3 * record.len()) else { return Err(3) };
    let (found, _) = cut(record, work);
    let answer = match pairs.get_mut(..2 * found.len()) {
        Some(pairs) => {
            write_pairs(record, found, pairs.as_chunks_mut().0);
            Ok((found.len() as u16,))
        }
        None => Err(4),
    };
    work.fill(0);
    answer
}

/// The records one after another, each with what is left of the result buffer.
pub fn icfl_batch(bytes: &[u8], record_ends: &[u32], work: &mut [u16], pairs: &mut [u16]) -> Batch {
    let mut batch = Batch { refusal: 0, replies: [Reply { refusal: 0, count: 0 }; MOST_RECORDS] };
    if let Err(no) = check_record_ends(record_ends, bytes.len()) {
        batch.refusal = no;
        return batch;
    }
    let (mut from, mut used) = (0, 0);
    for (reply, &end) in batch.replies.iter_mut().zip(record_ends) {
        let end = end as usize;
        match icfl(&bytes[from..end], work, &mut pairs[used..]) {
            Ok((count,)) => {
                reply.count = count;
                used += 2 * count as usize;
            }
            Err(no) => reply.refusal = no,
        }
        from = end;
    }
    batch
}

/// A break is kept where its place is the next end. Where ends lie before it, a stretch and its mark are over.
fn write_breaks(record: &[u8], ends: &[u16], breaks: &[[u16; 2]], result: &mut [[u16; 5]]) {
    let (mut begun, mut kept) = (0, 0);
    for (entries, &[place, border]) in result.iter_mut().zip(breaks) {
        while ends[kept] < place {
            begun = ends[kept];
            kept += 1;
        }
        let end = ends[kept];
        let [fourth, fifth] = if place == end {
            kept += 1;
            [begun, place].map(|from| record[(from + border) as usize].into())
        } else {
            [256, border - (end - place)]
        };
        *entries = [place, begun, border, fourth, fifth];
        begun = place;
    }
}

/// Gives the numbers of pieces and of breaks.
pub fn icfl_with_breaks(record: &[u8], work: &mut [u16], pairs: &mut [u16], breaks: &mut [u16]) -> Result<(u16, u16), u8> {
    check_record(record)?;
    let Some(work) = work.get_mut(..3 * record.len()) else { return Err(3) };
    let (found, considered) = cut(record, work);
    let answer = match (pairs.get_mut(..2 * found.len()), breaks.get_mut(..5 * considered.len())) {
        (Some(pairs), Some(breaks)) => {
            write_pairs(record, found, pairs.as_chunks_mut().0);
            write_breaks(record, found, considered, breaks.as_chunks_mut().0);
            Ok((found.len() as u16, considered.len() as u16))
        }
        _ => Err(4),
    };
    work.fill(0);
    answer
}

/// Duval's algorithm in the inverse order, in each stretch.
fn duval(word: &[u8], mut emit: impl FnMut(usize)) {
    let mut from = 0;
    while from < word.len() {
        if word[from] == SEPARATOR {
            from += 1;
            emit(from);
            continue;
        }
        let (mut met, mut at) = (from, from + 1);
        while at < word.len() && word[at] <= word[met] {
            met = if word[at] == word[met] { met + 1 } else { from };
            at += 1;
        }
        while from <= met {
            from += at - met;
            emit(from);
        }
    }
}

pub fn cfl_in(record: &[u8], ends: &mut [u16]) -> Result<(u16,), u8> {
    check_record(record)?;
    if ends.len() < record.len() {
        let mut needed = 0;
        duval(record, |_| needed += 1);
        if ends.len() < needed {
            return Err(4);
        }
    }
    let mut count = 0;
    duval(record, |end| {
        ends[count] = end as u16;
        count += 1;
    });
    Ok((count as u16,))
}

fn comes_before(u: &[u8], v: &[u8]) -> bool {
    match u.iter().zip(v).find(|(a, b)| a != b) {
        Some((a, b)) => a > b,
        None => u.len() < v.len(),
    }
}

/// From right to left, a place's word takes the words after it as long as it comes before them; a mark takes none, and is taken
/// by none.
pub fn lyndon_table(record: &[u8], lengths: &mut [u16]) -> Result<(u16,), u8> {
    check_record(record)?;
    let n = record.len();
    let Some(lengths) = lengths.get_mut(..n) else { return Err(4) };
    for i in (0..n).rev() {
        let mut j = i + 1;
        let end = if record[i] == SEPARATOR { j } else { n };
        while j < end {
            let next = lengths[j] as usize;
            if !comes_before(&record[i..j], &record[j..j + next]) {
                break;
            }
            j += next;
        }
        lengths[i] = (j - i) as u16;
    }
    Ok((n as u16,))
}
