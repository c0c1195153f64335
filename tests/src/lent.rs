//! What is lent to a call: parts of larger buffers, with pseudo-random content in and around them.
use crate::words::Random;

/// A part of a buffer, with 1 to 8 guard entries before and after it.
#[derive(Clone)]
pub struct Lent<T> {
    all: Vec<T>,
    from: usize,
    end: usize,
}

impl<T: Copy + PartialEq + std::fmt::Debug> Lent<T> {
    fn around(count: usize, random: &mut Random, mut entry: impl FnMut(&mut Random) -> T) -> Lent<T> {
        let from = 1 + random.below(8);
        let end = from + count;
        let total = end + 1 + random.below(8);
        Lent { all: (0..total).map(|_| entry(random)).collect(), from, end }
    }

    /// What is lent.
    pub fn part(&mut self) -> &mut [T] {
        &mut self.all[self.from..self.end]
    }

    /// Panics unless every entry, guards included, is as in `want`.
    pub fn expect(&self, want: &Lent<T>, what: &str) {
        if let Some(i) = (0..want.all.len()).find(|&i| self.all[i] != want.all[i]) {
            let place = i as isize - self.from as isize;
            panic!("{what}: entry {place} of {} is {:?}, not {:?}", self.end - self.from, self.all[i], want.all[i]);
        }
    }
}

impl Lent<u16> {
    pub fn entries(count: usize, random: &mut Random) -> Lent<u16> {
        Lent::around(count, random, |random| random.draw() as u16)
    }

    /// With the given content: a paired list.
    pub fn list(content: &[u16], random: &mut Random) -> Lent<u16> {
        let mut lent = Lent::entries(content.len(), random);
        lent.part().copy_from_slice(content);
        lent
    }
}

impl Lent<u32> {
    /// A list of record ends.
    pub fn record_ends(content: &[u32], random: &mut Random) -> Lent<u32> {
        let mut lent = Lent::around(content.len(), random, |random| random.draw() as u32);
        lent.part().copy_from_slice(content);
        lent
    }
}

impl Lent<u8> {
    /// A record.
    pub fn record(word: &[u8], random: &mut Random) -> Lent<u8> {
        let mut lent = Lent::around(word.len(), random, |random| random.draw() as u8);
        lent.part().copy_from_slice(word);
        lent
    }
}

impl Lent<i8> {
    pub fn sign(random: &mut Random) -> Lent<i8> {
        Lent::around(1, random, |random| random.draw() as i8)
    }
}
