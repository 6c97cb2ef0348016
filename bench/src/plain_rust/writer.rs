// Bits written one behind the other to a memory.

/// Writes bits to the front of a memory, of which the last byte is filled up with zeros.
pub struct Writer<'a> {
    bytes: &'a mut [u8],
    at: usize,
    pending: u64,
    filled: u32,
}

impl<'a> Writer<'a> {
    pub fn new(bytes: &'a mut [u8]) -> Self {
        Writer { bytes, at: 0, pending: 0, filled: 0 }
    }

    /// Writes the `n` lowest bits, of which there are 1 to 64; the bits above must be 0.
    #[inline]
    pub fn push(&mut self, bits: u64, n: u32) {
        self.pending |= bits << self.filled;
        let filled = self.filled + n;
        if filled < 64 {
            self.filled = filled;
            return;
        }
        self.bytes[self.at..self.at + 8].copy_from_slice(&self.pending.to_le_bytes());
        self.at += 8;
        self.pending = bits.checked_shr(64 - self.filled).unwrap_or(0);
        self.filled = filled - 64;
    }

    /// Writes whole words.
    #[inline]
    pub fn push_words(&mut self, words: &[u64]) {
        if self.filled > 0 {
            words.iter().for_each(|word| self.push(*word, 64));
            return;
        }
        let behind = self.at + 8 * words.len();
        for (eight, word) in self.bytes[self.at..behind].as_chunks_mut().0.iter_mut().zip(words) {
            *eight = word.to_le_bytes();
        }
        self.at = behind;
    }

    /// Writes what is pending.
    pub fn finish(self) {
        let rest = self.filled.div_ceil(8) as usize;
        self.bytes[self.at..self.at + rest].copy_from_slice(&self.pending.to_le_bytes()[..rest]);
    }
}
