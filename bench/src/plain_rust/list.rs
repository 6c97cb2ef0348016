// The list form: the members as rising 16-bit numbers.
use super::faults::{CONTENT, check, check_last};
use super::set::Set;
use super::words::Words;
use crate::form::Sort;
use crate::told::Fault;

#[derive(Clone, Copy)]
pub struct List<'a> {
    last: u32,
    numbers: &'a [u16],
}

/// Opens the numbers of a set of `last` bays.
pub fn open(last: u32, numbers: &[u16]) -> Result<List<'_>, Fault> {
    check_last(last)?;
    check(is_lawful(last, numbers), CONTENT, 1)?;
    Ok(List { last, numbers })
}

// Whether the numbers rise from 1 at least to at most `last`. Nothing stops it early, so that it goes by many numbers at a time.
fn is_lawful(last: u32, numbers: &[u16]) -> bool {
    let (Some(first), Some(end)) = (numbers.first(), numbers.last()) else {
        return true;
    };
    let rises = numbers.iter().zip(&numbers[1..]).fold(true, |rises, (a, b)| rises & (a < b));
    rises && *first >= 1 && u32::from(*end) <= last
}

impl List<'_> {
    // How many members lie from 1 to `i`.
    #[inline]
    fn members(&self, i: u32) -> u32 {
        self.numbers.partition_point(|n| u32::from(*n) <= i) as u32
    }

    // The `n`-th member.
    #[inline]
    fn member(&self, n: u32) -> Option<u32> {
        let place = n.checked_sub(1)?;
        self.numbers.get(place as usize).map(|bay| u32::from(*bay))
    }

    // The `n`-th non-member: behind the members that have fewer non-members before them.
    #[inline]
    fn other(&self, n: u32) -> Option<u32> {
        if n == 0 || n > self.last {
            return None;
        }
        let (mut before, mut left) = (0, self.numbers.len());
        while left > 0 {
            let half = left / 2;
            let middle = before + half;
            let fewer = u32::from(self.numbers[middle]) - (middle as u32 + 1) < n;
            before = if fewer { middle + 1 } else { before };
            left = if fewer { left - half - 1 } else { half };
        }
        Some(n + before as u32).filter(|bay| *bay <= self.last)
    }
}

impl Set for List<'_> {
    fn last(&self) -> u32 {
        self.last
    }

    #[inline]
    fn holds(&self, i: u32) -> bool {
        u16::try_from(i).is_ok_and(|i| self.numbers.binary_search(&i).is_ok())
    }

    #[inline]
    fn next(&self, sort: Sort, i: u32) -> Option<u32> {
        self.select(sort, self.rank(sort, i.max(1) - 1) + 1)
    }

    #[inline]
    fn previous(&self, sort: Sort, i: u32) -> Option<u32> {
        self.select(sort, self.rank(sort, i))
    }

    #[inline]
    fn rank(&self, sort: Sort, i: u32) -> u32 {
        match sort {
            Sort::Members => self.members(i),
            Sort::Others => i.min(self.last) - self.members(i),
        }
    }

    #[inline]
    fn select(&self, sort: Sort, n: u32) -> Option<u32> {
        match sort {
            Sort::Members => self.member(n),
            Sort::Others => self.other(n),
        }
    }

    fn decode(&self, words: &mut Words) {
        // The numbers rise, so each word is written anew with each number in it, and never read.
        let (mut at, mut word) = (0, 0);
        for n in self.numbers {
            let place = *n - 1;
            let w = usize::from(place) / 64;
            word = if w == at { word } else { 0 };
            at = w;
            word |= 1 << (place % 64);
            words[at] = word;
        }
    }
}

/// Writes the numbers of a set to a memory of just so many.
pub fn encode(words: &Words, numbers: &mut [u16]) {
    let mut rest = numbers;
    for (w, word) in words.iter().enumerate() {
        let mut left = *word;
        let (here, behind) = rest.split_at_mut(left.count_ones() as usize);
        for number in here {
            *number = 64 * w as u16 + left.trailing_zeros() as u16 + 1;
            left &= left - 1;
        }
        rest = behind;
    }
}
