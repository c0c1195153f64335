//! Words to try the calls on.
use crate::reference::{parts, SEPARATOR};

/// A xorshift generator.
#[derive(Clone)]
pub struct Random(u64);

impl Random {
    /// The seed is not 0.
    pub fn new(seed: u64) -> Random {
        Random(seed)
    }

    pub fn draw(&mut self) -> u64 {
        self.0 ^= self.0 >> 12;
        self.0 ^= self.0 << 25;
        self.0 ^= self.0 >> 27;
        self.0.wrapping_mul(0x2545_f491_4f6c_dd1d) >> 16
    }

    /// A number below `n`.
    pub fn below(&mut self, n: usize) -> usize {
        (self.draw() % n as u64) as usize
    }

    fn letter(&mut self, letters: usize) -> u8 {
        b'a' + self.below(letters) as u8
    }
}

/// All words of `length` letters over the first `letters` of the alphabet.
pub fn all_words(letters: usize, length: usize) -> impl Iterator<Item = Vec<u8>> {
    (0..letters.pow(length as u32)).map(move |mut number| {
        let digits = (0..length).map(|_| {
            let digit = number % letters;
            number /= letters;
            b'a' + digit as u8
        });
        digits.collect()
    })
}

/// The same, with a mark as the last of the letters.
pub fn all_marked_words(letters: usize, length: usize) -> impl Iterator<Item = Vec<u8>> {
    let last = b'a' + letters as u8 - 1;
    all_words(letters, length)
        .map(move |word| word.iter().map(|&letter| if letter == last { SEPARATOR } else { letter }).collect())
}

/// All rising lists of ends of a record of `length` letters.
pub fn all_divisions(length: usize) -> impl Iterator<Item = Vec<u16>> {
    (0..1usize << (length - 1)).map(move |chosen| {
        (1..=length).filter(|&end| end == length || chosen >> (end - 1) & 1 == 1).map(|end| end as u16).collect()
    })
}

/// The list of ends with a count for each, from 1 to its part's length: a paired list that is accepted.
pub fn with_counts(ends: &[u16], random: &mut Random) -> Vec<u16> {
    let pair = |(from, end): (u16, u16)| [end, 1 + random.below((end - from).into()) as u16];
    parts(ends).into_iter().flat_map(pair).collect()
}

/// Paper 01's A to K: the record; its piece ends, each with the number of strict pieces inside; its strict ends.
pub const RECORDS: [(&str, &[u16], &[u16]); 11] = [
    ("a", &[1, 1], &[1]),
    ("aaa", &[3, 3], &[1, 2, 3]),
    ("ab", &[1, 1, 2, 1], &[1, 2]),
    ("ba", &[2, 1], &[2]),
    ("abc", &[1, 1, 2, 1, 3, 1], &[1, 2, 3]),
    ("baba", &[4, 2], &[2, 4]),
    ("bbabbabbb", &[6, 2, 9, 3], &[3, 6, 7, 8, 9]),
    ("cbabacbac", &[5, 1, 9, 2], &[5, 8, 9]),
    ("cbabacaacbabacbac", &[13, 2, 17, 2], &[8, 13, 16, 17]),
    ("dabadabdabdadac", &[4, 1, 10, 2, 15, 1], &[4, 7, 10, 15]),
    ("dabdadacddbdc", &[3, 1, 8, 1, 13, 1], &[3, 8, 13]),
];

/// A kind of pseudo-random words: its name, and what makes a word of at most the given length.
pub type Kind = (&'static str, fn(&mut Random, usize) -> Vec<u8>);

pub const KINDS: [Kind; 11] = [
    ("uniform over few letters", uniform_few),
    ("uniform over all bytes", uniform_all),
    ("periodic", periodic),
    ("Fibonacci", fibonacci),
    ("ramps", ramps),
    ("plateaus", plateaus),
    ("nearly equal", nearly_equal),
    ("joined breaks", joined_breaks),
    ("two powers", two_powers),
    ("with marks", with_marks),
    ("stretches", several_stretches),
];

/// How many kinds have marks by chance alone, or none; they come first.
const BEFORE_MARKS: usize = 9;

fn uniform_few(random: &mut Random, length: usize) -> Vec<u8> {
    let letters = 2 + random.below(3);
    (0..length).map(|_| random.letter(letters)).collect()
}

fn uniform_all(random: &mut Random, length: usize) -> Vec<u8> {
    (0..length).map(|_| random.draw() as u8).collect()
}

/// A power of a short root, cut anywhere, at times with one byte changed.
fn periodic(random: &mut Random, length: usize) -> Vec<u8> {
    let root_length = 1 + random.below(length.min(12));
    let root = uniform_few(random, root_length);
    let mut word: Vec<u8> = root.iter().copied().cycle().skip(random.below(root_length)).take(length).collect();
    if random.below(2) == 0 {
        let place = random.below(length);
        word[place] = random.letter(4);
    }
    word
}

/// A part of the Fibonacci word over two bytes.
pub fn fibonacci_word(x: u8, y: u8, length: usize) -> Vec<u8> {
    let (mut short, mut word) = (vec![x], vec![x, y]);
    while word.len() < length {
        let next = [&word[..], &short[..]].concat();
        (short, word) = (word, next);
    }
    word.truncate(length);
    word
}

fn fibonacci(random: &mut Random, length: usize) -> Vec<u8> {
    let skipped = random.below(length.min(40));
    let (x, y) = if random.below(2) == 0 { (b'a', b'b') } else { (b'b', b'a') };
    fibonacci_word(x, y, length + skipped)[skipped..].to_vec()
}

/// Bytes that rise or fall by a fixed step, and wrap.
fn ramps(random: &mut Random, length: usize) -> Vec<u8> {
    let (first, slow) = (random.draw() as u8, 1 + random.below(4));
    let step = [1, 2, 255, 254, 16, 240][random.below(6)];
    (0..length).map(|i| first.wrapping_add(((i / slow) as u8).wrapping_mul(step))).collect()
}

/// Stretches of equal bytes: rising, falling, or in any order.
fn plateaus(random: &mut Random, length: usize) -> Vec<u8> {
    let order = random.below(3);
    let mut level = random.letter(8);
    let mut word = Vec::new();
    while word.len() < length {
        let end = length.min(word.len() + 1 + random.below(1 + length / 4));
        word.resize(end, level);
        level = match order {
            0 => level.saturating_add(1),
            1 => level.saturating_sub(1),
            _ => random.letter(3),
        };
    }
    word
}

/// Equal bytes but for one to three places.
fn nearly_equal(random: &mut Random, length: usize) -> Vec<u8> {
    let mut word = vec![b'b'; length];
    for _ in 0..1 + random.below(3) {
        let place = if random.below(3) == 0 { length - 1 } else { random.below(length) };
        word[place] = random.letter(3);
    }
    word
}

/// Like paper 01's record I: h is put behind one of its own prefixes r and smaller letters, r a u h, again and again. Where r is at least
/// as long as the first factor of h and still inverse Lyndon, the break is joined.
fn joined_breaks(random: &mut Random, length: usize) -> Vec<u8> {
    // r a u r b, with r from the largest letter on.
    let mut r = vec![b'p'];
    r.extend((0..random.below(3)).map(|_| b'm' + random.below(3) as u8));
    let u = random.below(2);
    let mut word = [&r[..], &[b'k'; 2][..1 + u], &r[..], &[b'l' + random.below(5) as u8]].concat();
    let (mut first, mut failing) = (r.len() + 1 + u, word.len());
    loop {
        let border = if random.below(4) > 0 { first + random.below(failing - first) } else { random.below(failing) };
        let u = random.below(3);
        let prefix = border + 1 + u;
        if prefix + word.len() > length {
            break;
        }
        let smaller = word[border].saturating_sub(1 + random.below(2) as u8);
        let mut next = word[..border].to_vec();
        next.resize(prefix, smaller);
        next.append(&mut word);
        word = next;
        first = if first <= border { prefix + first } else { prefix };
        failing = prefix + border + 1;
    }
    word.truncate(length);
    word
}

/// x^i y x^j z over small roots: the start table's worst case, and its like.
fn two_powers(random: &mut Random, length: usize) -> Vec<u8> {
    let root_length = 1 + random.below(3);
    let root = uniform_few(random, root_length);
    let half = (length / 2).saturating_sub(random.below(3));
    let mut word: Vec<u8> = root.iter().copied().cycle().take(half).collect();
    word.push(random.letter(3));
    word.extend(root.iter().copied().cycle().take((length - 1).saturating_sub(half)));
    word.truncate(length);
    if let Some(last) = word.last_mut() {
        *last = random.letter(4);
    }
    word
}

/// Letters, and what stands before them once more or several times: repetitions of many periods, one inside another. It is none of the
/// kinds above.
pub fn repeating(random: &mut Random, length: usize) -> Vec<u8> {
    let (letters, longest) = (2 + random.below(2), 1 + random.below(length));
    let mut word = vec![random.letter(letters)];
    while word.len() < length {
        let copied = 1 + random.below(word.len().min(longest));
        let from = if random.below(4) > 0 { word.len() - copied } else { random.below(word.len() + 1 - copied) };
        for _ in 0..1 + random.below(3) {
            word.extend_from_within(from..from + copied);
        }
        for _ in 0..random.below(3) {
            word.push(random.letter(letters));
        }
    }
    word.truncate(length);
    word
}

/// A word of another kind, with marks put into it: everywhere, at every second place, at the front, at the end, one, a row of them,
/// or at random places.
fn with_marks(random: &mut Random, length: usize) -> Vec<u8> {
    let (_, make) = KINDS[random.below(BEFORE_MARKS)];
    let mut word = make(random, length);
    let n = word.len();
    let (from, row, of) = (random.below(n), random.below(n + 1), 1 + random.below(20));
    let kind = random.below(9);
    for (i, letter) in word.iter_mut().enumerate() {
        let marked = match kind {
            0 => true,
            1 => i % 2 == 1,
            2 => i % 2 == 0,
            3 => i < of,
            4 => n - i <= of,
            5 => i == from,
            6 => (from..from + row).contains(&i),
            _ => random.below(of) == 0,
        };
        if marked {
            *letter = SEPARATOR;
        }
    }
    word
}

/// Words of other kinds, mostly with joined breaks, with marks between them.
fn several_stretches(random: &mut Random, length: usize) -> Vec<u8> {
    let each = 1 + length / (1 + random.below(6));
    let mut word = Vec::new();
    while word.len() < length {
        let make = if random.below(4) > 0 { joined_breaks } else { KINDS[random.below(BEFORE_MARKS)].1 };
        let stretch_length = 1 + random.below(each);
        word.extend(make(random, stretch_length));
        word.resize(word.len() + 1 + random.below(2), SEPARATOR);
    }
    word.truncate(length);
    word
}

/// The records one after another, and where each ends.
pub fn batch_of(records: &[&[u8]]) -> (Vec<u8>, Vec<u32>) {
    let ends = records.iter().scan(0, |end, record| {
        *end += record.len() as u32;
        Some(*end)
    });
    (records.concat(), ends.collect())
}
