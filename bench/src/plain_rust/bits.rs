// A bitvector in bytes, asked by words of 64 bits.
use super::words::{Row, low, nth_one};
use crate::form::Sort;

/// A bitvector of `len` bits, counted from 1.
#[derive(Clone, Copy)]
pub struct Bits<'a> {
    bytes: &'a [u8],
    len: u32,
}

// The word that turns bits of the sort into ones.
#[inline]
fn turning(sort: Sort) -> u64 {
    match sort {
        Sort::Members => 0,
        Sort::Others => u64::MAX,
    }
}

// How many ones some bytes have, eight at a time.
#[inline]
fn count_ones(bytes: &[u8]) -> u32 {
    bytes.as_chunks().0.iter().map(|eight| u64::from_le_bytes(*eight).count_ones()).sum()
}

impl Row for Bits<'_> {
    #[inline]
    fn word(self, w: u32) -> u64 {
        let rest = self.bytes.get(8 * w as usize..).unwrap_or_default();
        match rest.first_chunk() {
            Some(eight) => u64::from_le_bytes(*eight),
            None => {
                let mut eight = [0; 8];
                eight[..rest.len()].copy_from_slice(rest);
                u64::from_le_bytes(eight)
            }
        }
    }
}

impl<'a> Bits<'a> {
    pub fn new(bytes: &'a [u8], len: u32) -> Self {
        Bits { bytes, len }
    }

    pub fn len(self) -> u32 {
        self.len
    }

    /// The number of words.
    pub fn words(self) -> u32 {
        self.len.div_ceil(64)
    }

    /// Copies whole words from word `w` on.
    #[inline]
    pub fn copy_words(self, w: u32, words: &mut [u64]) {
        for (word, eight) in words.iter_mut().zip(self.bytes[8 * w as usize..].as_chunks().0) {
            *word = u64::from_le_bytes(*eight);
        }
    }

    #[inline]
    pub fn get(self, i: u32) -> bool {
        let p = i - 1;
        self.bytes[(p / 8) as usize] >> (p % 8) & 1 == 1
    }

    /// The first bit of the sort from `from` on.
    #[inline]
    pub fn next(self, sort: Sort, from: u32) -> Option<u32> {
        if from > self.len {
            return None;
        }
        let (p, turn) = (from - 1, turning(sort));
        let mut w = p / 64;
        let mut word = (self.word(w) ^ turn) & (u64::MAX << (p % 64));
        while word == 0 {
            w += 1;
            if w >= self.words() {
                return None;
            }
            word = self.word(w) ^ turn;
        }
        Some(64 * w + word.trailing_zeros() + 1).filter(|i| *i <= self.len)
    }

    /// The last bit of the sort from 1 to `from`, which is at most the length.
    #[inline]
    pub fn previous(self, sort: Sort, from: u32) -> Option<u32> {
        let (p, turn) = (from.checked_sub(1)?, turning(sort));
        let mut w = p / 64;
        let mut word = (self.word(w) ^ turn) & low(p % 64 + 1);
        while word == 0 {
            w = w.checked_sub(1)?;
            word = self.word(w) ^ turn;
        }
        Some(64 * w + 64 - word.leading_zeros())
    }

    /// How many ones lie from bit `from` to bit `to`.
    #[inline]
    pub fn ones(self, from: u32, to: u32) -> u32 {
        if from > to {
            return 0;
        }
        let (first, last) = ((from - 1) / 64, (to - 1) / 64);
        let (head, tail) = (u64::MAX << ((from - 1) % 64), low((to - 1) % 64 + 1));
        if first == last {
            return (self.word(first) & head & tail).count_ones();
        }
        let between = &self.bytes[8 * (first + 1) as usize..8 * last as usize];
        (self.word(first) & head).count_ones() + count_ones(between) + (self.word(last) & tail).count_ones()
    }

    /// The `k`-th bit of the sort from bit `from` on.
    #[inline]
    pub fn kth(self, sort: Sort, from: u32, k: u32) -> Option<u32> {
        if k == 0 || from > self.len {
            return None;
        }
        let (p, turn) = (from - 1, turning(sort));
        let mut w = p / 64;
        let mut left = k + ((self.word(w) ^ turn) & !(u64::MAX << (p % 64))).count_ones();
        for chunk in self.bytes[8 * w as usize..].as_chunks::<64>().0 {
            let ones = count_ones(chunk);
            let n = if sort == Sort::Members { ones } else { 512 - ones };
            if left <= n {
                break;
            }
            left -= n;
            w += 8;
        }
        while w < self.words() {
            let word = self.word(w) ^ turn;
            let n = word.count_ones();
            if left <= n {
                return Some(64 * w + nth_one(word, left) + 1).filter(|i| *i <= self.len);
            }
            left -= n;
            w += 1;
        }
        None
    }

    /// All ones, the first first.
    pub fn all(self) -> Ones<'a> {
        Ones { bits: self, w: 0, word: self.word(0) }
    }
}

/// The ones of a bitvector, one after the other.
#[derive(Clone)]
pub struct Ones<'a> {
    bits: Bits<'a>,
    w: u32,
    word: u64,
}

impl Iterator for Ones<'_> {
    type Item = u32;

    #[inline]
    fn next(&mut self) -> Option<u32> {
        while self.word == 0 {
            self.w += 1;
            if self.w >= self.bits.words() {
                return None;
            }
            self.word = self.bits.word(self.w);
        }
        let place = self.word.trailing_zeros();
        self.word &= self.word - 1;
        Some(64 * self.w + place + 1)
    }
}

impl Ones<'_> {
    /// The `k`-th one from here on, from 1; the iterator then stands behind it.
    #[inline]
    pub fn skip_to(&mut self, mut k: u32) -> Option<u32> {
        loop {
            let n = self.word.count_ones();
            if k <= n {
                break;
            }
            k -= n;
            self.w += 1;
            if self.w >= self.bits.words() {
                return None;
            }
            self.word = self.bits.word(self.w);
        }
        let place = nth_one(self.word, k);
        self.word &= u64::MAX.checked_shl(place + 1).unwrap_or(0);
        Some(64 * self.w + place + 1)
    }
}
