// The plain form: a bit for each bay.
use super::bits::Bits;
use super::faults::{check_last, check_length, check_spare};
use super::set::{Set, share};
use super::words::{Row, Words};
use crate::form::Sort;
use crate::told::Fault;

#[derive(Clone, Copy)]
pub struct Plain<'a> {
    bits: Bits<'a>,
}

/// Opens the bytes of a set of `last` bays.
pub fn open(last: u32, bytes: &[u8]) -> Result<Plain<'_>, Fault> {
    check_last(last)?;
    check_length(bytes, last, 1)?;
    check_spare(bytes, last, 1)?;
    Ok(Plain { bits: Bits::new(bytes, last) })
}

impl Set for Plain<'_> {
    fn last(&self) -> u32 {
        self.bits.len()
    }

    #[inline]
    fn holds(&self, i: u32) -> bool {
        (1..=self.last()).contains(&i) && self.bits.get(i)
    }

    #[inline]
    fn next(&self, sort: Sort, i: u32) -> Option<u32> {
        self.bits.next(sort, i.max(1))
    }

    #[inline]
    fn previous(&self, sort: Sort, i: u32) -> Option<u32> {
        self.bits.previous(sort, i.min(self.last()))
    }

    #[inline]
    fn rank(&self, sort: Sort, i: u32) -> u32 {
        let to = i.min(self.last());
        share(sort, self.bits.ones(1, to), to)
    }

    #[inline]
    fn select(&self, sort: Sort, n: u32) -> Option<u32> {
        self.bits.kth(sort, 1, n)
    }

    #[inline]
    fn count(&self, a: u32, b: u32) -> u32 {
        self.bits.ones(a, b)
    }

    fn decode(&self, words: &mut Words) {
        self.bits.copy_words(0, words);
        if let Some(end) = words.get_mut(self.last() as usize / 64) {
            *end = self.bits.word(self.last() / 64);
        }
    }
}

/// Writes the bytes of a set of `last` bays.
pub fn encode(words: &Words, last: u32, bytes: &mut [u8]) {
    let bytes = &mut bytes[..last.div_ceil(8) as usize];
    let (eights, rest) = bytes.as_chunks_mut();
    for (eight, word) in eights.iter_mut().zip(words) {
        *eight = word.to_le_bytes();
    }
    if !rest.is_empty() {
        rest.copy_from_slice(&words[eights.len()].to_le_bytes()[..rest.len()]);
    }
}
