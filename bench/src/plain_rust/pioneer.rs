// The pioneer form: the first bays of the runs, and the sums of their lengths.
use super::bits::{Bits, Ones};
use super::faults::{NUMBERS_LAST, UNLAWFUL, check, check_last, check_length, check_spare};
use super::set::{Set, share};
use super::words::{Row, Words, reach};
use super::writer::Writer;
use crate::form::Sort;
use crate::told::Fault;

#[derive(Clone, Copy)]
pub struct Pioneer<'a> {
    starts: Bits<'a>,
    sums: Bits<'a>,
}

/// Opens the parts of a set of `last` bays with `count` members.
pub fn open<'a>(last: u32, count: u32, starts: &'a [u8], sums: &'a [u8]) -> Result<Pioneer<'a>, Fault> {
    check_last(last)?;
    check(count <= last, NUMBERS_LAST, 0)?;
    check_length(starts, last, 1)?;
    check_length(sums, count, 2)?;
    check_spare(starts, last, 1)?;
    check_spare(sums, count, 2)?;
    let index = Pioneer { starts: Bits::new(starts, last), sums: Bits::new(sums, count) };
    check(index.runs_are_lawful(), UNLAWFUL, 2)?;
    Ok(index)
}

// A run: its first bay, and how many members lie before it and up to its end.
#[derive(Clone, Copy)]
struct Run {
    start: u32,
    before: u32,
    sum: u32,
}

impl Run {
    // The bay behind it.
    fn behind(self) -> u32 {
        self.start + (self.sum - self.before)
    }
}

impl Pioneer<'_> {
    fn runs_are_lawful(&self) -> bool {
        let (last, count) = (self.starts.len(), self.sums.len());
        let mut sums = self.sums.all();
        let (mut before, mut free) = (0, 1);
        for start in self.starts.all() {
            let Some(sum) = sums.next() else {
                return false;
            };
            let behind = start + (sum - before);
            if start < free || behind > last + 1 {
                return false;
            }
            (before, free) = (sum, behind + 1);
        }
        before == count
    }

    // The run that begins last at or before a bay.
    #[inline]
    fn begun(&self, to: u32) -> Option<Run> {
        let start = self.starts.previous(Sort::Members, to)?;
        let number = self.starts.ones(1, start);
        let sum = self.sums.kth(Sort::Members, 1, number)?;
        let before = self.sums.previous(Sort::Members, sum - 1).unwrap_or(0);
        Some(Run { start, before, sum })
    }

    // The run in which a bay lies.
    #[inline]
    fn held(&self, bay: u32) -> Option<Run> {
        self.begun(bay).filter(|run| bay < run.behind())
    }

    // The `n`-th member.
    #[inline]
    fn member(&self, n: u32) -> Option<u32> {
        let below = n.checked_sub(1)?;
        if n > self.sums.len() {
            return None;
        }
        let number = self.sums.ones(1, below) + 1;
        let before = self.sums.previous(Sort::Members, below).unwrap_or(0);
        Some(self.starts.kth(Sort::Members, 1, number)? + (below - before))
    }

    // The `n`-th non-member: behind the members of the runs that have fewer non-members before them. It goes by the runs that begin in
    // one word of the row, and one by one through those of the last.
    #[inline]
    fn other(&self, n: u32) -> Option<u32> {
        if n == 0 || n > self.starts.len() - self.sums.len() {
            return None;
        }
        let (mut sums, mut members) = (self.sums.all(), 0);
        for w in 0..self.starts.words() {
            let word = self.starts.word(w);
            if word == 0 {
                continue;
            }
            let mut ahead = sums.clone();
            let before_last = match word.count_ones() - 1 {
                0 => members,
                others => ahead.skip_to(others)?,
            };
            let last = 64 * w + 64 - word.leading_zeros();
            if last - 1 - before_last >= n {
                return Some(n + members_before(word, 64 * w, n, sums, members));
            }
            members = ahead.next()?;
            sums = ahead;
        }
        Some(n + members)
    }
}

// How many members lie before the `n`-th non-member, which lies before the last of the runs that begin in a word of bays behind `base`.
// Before the word's runs there are so many members.
#[inline]
fn members_before(mut word: u64, base: u32, n: u32, sums: Ones, mut members: u32) -> u32 {
    for sum in sums {
        let start = base + word.trailing_zeros() + 1;
        if start - 1 - members >= n {
            break;
        }
        members = sum;
        word &= word - 1;
    }
    members
}

impl Set for Pioneer<'_> {
    fn last(&self) -> u32 {
        self.starts.len()
    }

    #[inline]
    fn holds(&self, i: u32) -> bool {
        i <= self.last() && self.held(i).is_some()
    }

    #[inline]
    fn next(&self, sort: Sort, i: u32) -> Option<u32> {
        let from = i.max(1);
        if from > self.last() {
            return None;
        }
        match (sort, self.held(from)) {
            (Sort::Members, None) => self.starts.next(Sort::Members, from),
            (Sort::Others, Some(run)) => Some(run.behind()).filter(|bay| *bay <= self.last()),
            _ => Some(from),
        }
    }

    #[inline]
    fn previous(&self, sort: Sort, i: u32) -> Option<u32> {
        let to = i.min(self.last());
        match sort {
            Sort::Members => self.begun(to).map(|run| to.min(run.behind() - 1)),
            Sort::Others => Some(self.held(to).map_or(to, |run| run.start - 1)).filter(|bay| *bay > 0),
        }
    }

    #[inline]
    fn rank(&self, sort: Sort, i: u32) -> u32 {
        let to = i.min(self.last());
        let members = self.begun(to).map_or(0, |run| run.sum.min(run.before + (to + 1 - run.start)));
        share(sort, members, to)
    }

    #[inline]
    fn select(&self, sort: Sort, n: u32) -> Option<u32> {
        match sort {
            Sort::Members => self.member(n),
            Sort::Others => self.other(n),
        }
    }

    fn decode(&self, words: &mut Words) {
        let mut sums = self.sums.all();
        // The members before the next run, and how many bays of the last one reach over into the next word.
        let (mut before, mut over) = (0, 0);
        for (w, word) in (0..self.starts.words()).zip(words) {
            let mut starts = self.starts.word(w);
            let mut bays = reach(over);
            over = u32::saturating_sub(over, 64);
            while starts != 0 {
                let place = starts.trailing_zeros();
                starts &= starts - 1;
                let sum = sums.next().unwrap_or(before);
                let end = place + (sum - before);
                bays |= reach(end) & (u64::MAX << place);
                over = end.saturating_sub(64);
                before = sum;
            }
            *word = bays;
        }
    }
}

/// Writes the parts of a set of `last` bays to memories of just their lengths.
pub fn encode(words: &Words, last: u32, starts: &mut [u8], sums: &mut [u8]) {
    sums.fill(0);
    let mut row = Writer::new(starts);
    // The non-members before the run that has begun, or the members before the next one.
    let mut before = 0;
    let (mut begun, mut carry) = (false, 0);
    for w in 0..last / 64 + 1 {
        let word = words.get(w as usize).copied().unwrap_or(0);
        let shifted = word << 1 | carry;
        carry = word >> 63;
        let bits = (last - 64 * w).min(64);
        if bits > 0 {
            row.push(word & !shifted, bits);
        }
        let mut turns = word ^ shifted;
        while turns != 0 {
            before = 64 * w + turns.trailing_zeros() - before;
            turns &= turns - 1;
            if begun {
                sums[(before - 1) as usize / 8] |= 1 << ((before - 1) % 8);
            }
            begun = !begun;
        }
    }
    row.finish();
}
