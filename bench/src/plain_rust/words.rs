// Rows of bits that are read by words of 64: what can be asked of any of them, and a whole set as words.

/// A row of bits, counted from 1. What lies behind the last is read as 0.
pub trait Row: Copy {
    /// The bits 64 `w` + 1 to 64 `w` + 64, the first of them lowest.
    fn word(self, w: u32) -> u64;

    /// The `n` bits from the place `from` on, which is counted from 0; `n` is from 1 to 64.
    #[inline]
    fn bits(self, from: u32, n: u32) -> u64 {
        let (w, shift) = (from / 64, from % 64);
        let mut bits = self.word(w) >> shift;
        if shift + n > 64 {
            bits |= self.word(w + 1) << (64 - shift);
        }
        bits & low(n)
    }

    /// What the `n` bits from the place `from` on have.
    #[inline]
    fn seen(self, from: u32, n: u32) -> Seen {
        if n <= 64 {
            let bits = self.bits(from, n);
            return Seen { one: bits != 0, zero: bits != low(n) };
        }
        let (mut one, mut zero) = (false, false);
        let mut at = 0;
        while at < n && !(one && zero) {
            let take = (n - at).min(64);
            let bits = self.bits(from + at, take);
            one |= bits != 0;
            zero |= bits != low(take);
            at += take;
        }
        Seen { one, zero }
    }
}

/// Whether some bits have a one, and a zero.
#[derive(Clone, Copy, PartialEq, Eq)]
pub struct Seen {
    pub one: bool,
    pub zero: bool,
}

impl Seen {
    pub fn is_mixed(self) -> bool {
        self.one && self.zero
    }
}

/// A word with its `n` lowest bits; `n` is from 1 to 64.
#[inline]
pub fn low(n: u32) -> u64 {
    u64::MAX >> (64 - n)
}

/// A word with its `n` lowest bits, or with all of them where `n` is above 64.
#[inline]
pub fn reach(n: u32) -> u64 {
    if n >= 64 { u64::MAX } else { (1 << n) - 1 }
}

/// The place, from 0, of the `k`-th one of a word that has so many.
#[inline]
pub fn nth_one(mut word: u64, k: u32) -> u32 {
    for _ in 1..k {
        word &= word - 1;
    }
    word.trailing_zeros()
}

/// The number of words in which any set fits.
pub const WORDS: usize = 1024;

/// A set as words: bay `i` is bit `i`.
pub type Words = [u64; WORDS];

impl Row for &Words {
    #[inline]
    fn word(self, w: u32) -> u64 {
        self.get(w as usize).copied().unwrap_or(0)
    }
}

/// Makes the bits from the place `from` to before the place `to` 1, both counted from 0.
#[inline]
pub fn fill_range(words: &mut Words, from: u32, to: u32) {
    if from >= to {
        return;
    }
    let (first, last) = ((from / 64) as usize, ((to - 1) / 64) as usize);
    let (head, tail) = (u64::MAX << (from % 64), low((to - 1) % 64 + 1));
    if first == last {
        words[first] |= head & tail;
    } else {
        words[first] |= head;
        words[first + 1..last].fill(u64::MAX);
        words[last] |= tail;
    }
}
