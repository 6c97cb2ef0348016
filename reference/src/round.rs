//! The round over the free bays and the bays of a class (docs/ROUND.md).

use crate::refusals::Refusal;
use crate::sets::{self, holds, Set, Sort};

/// The posts of the signs 1 to 16.
const POSTS: [u64; 16] = [
    1, 24, 49, 61, 97, 122, 148, 160, 203, 231, 256, 277, 310, 344, 371, 402,
];

pub struct Round {
    free: Set,
    class: Set,
    place: u64,
    handed: u64,
    stretches: u64,
}

/// What closing tells.
#[derive(Clone, Copy, Debug, PartialEq, Eq)]
pub struct Report {
    pub handed: u64,
    pub stretches: u64,
    pub place: u64,
}

impl Round {
    /// A fresh round, over its own copy of the two sets.
    pub fn new(free: &[bool], class: &[bool]) -> Round {
        Round {
            free: free.to_vec(),
            class: class.to_vec(),
            place: 1,
            handed: 0,
            stretches: 0,
        }
    }

    /// The last bay w: the smaller of the two last bays.
    fn last(&self) -> u64 {
        sets::last(&self.free).min(sets::last(&self.class))
    }

    /// The next member of a set at the place. None, or a bay beyond w, is read as w + 1.
    fn next_member(&self, set: &[bool]) -> u64 {
        match sets::next(set, Sort::Members, self.place) {
            Some(bay) if bay <= self.last() => bay,
            _ => self.last() + 1,
        }
    }

    /// Takes one stretch, at a place up to w. Gives its bay if that is a common one.
    fn take_stretch(&mut self) -> Option<u64> {
        let p = self.place;
        if holds(&self.free, p) && holds(&self.class, p) {
            self.place = p + 1;
            return Some(p);
        }
        let m = self
            .next_member(&self.free)
            .max(self.next_member(&self.class));
        self.place = m;
        None
    }

    /// The next common bay or none, and the stretches taken.
    #[allow(clippy::should_implement_trait)] // the documents call it so
    pub fn next(&mut self) -> (Option<u64>, u64) {
        let mut common = None;
        let mut taken = 0;
        while common.is_none() && self.place <= self.last() {
            common = self.take_stretch();
            taken += 1;
        }
        if common.is_some() {
            self.handed += 1;
        }
        self.stretches += taken;
        (common, taken)
    }

    /// How many bays were written to the front of the memory, and the stretches taken.
    pub fn sheet(&mut self, memory: &mut [u64]) -> (u64, u64) {
        let mut written = 0;
        let mut taken = 0;
        for slot in memory.iter_mut() {
            let (common, stretches) = self.next();
            taken += stretches;
            match common {
                Some(bay) => *slot = bay,
                None => break,
            }
            written += 1;
        }
        (written, taken)
    }

    /// Steps to the place q.
    pub fn go(&mut self, q: u64) -> Result<(), Refusal> {
        if q == 0 {
            return Err(Refusal::NoBay);
        }
        if q > self.last() + 1 {
            return Err(Refusal::Beyond);
        }
        if q < self.place {
            return Err(Refusal::Behind);
        }
        self.place = q;
        Ok(())
    }

    /// How many free bays lie from a to b.
    pub fn count(&self, a: u64, b: u64) -> Result<u64, Refusal> {
        if a == 0 || b == 0 || a > b {
            return Err(Refusal::NoBay);
        }
        if b > self.last() {
            return Err(Refusal::Beyond);
        }
        let mut count = 0;
        for bay in a..=b {
            if holds(&self.free, bay) {
                count += 1;
            }
        }
        Ok(count)
    }

    /// The free bay up to w nearest to p, or none. The lower bay is preferred at equal distance.
    pub fn nearest(&self, p: u64) -> Result<Option<u64>, Refusal> {
        if p == 0 {
            return Err(Refusal::NoBay);
        }
        if p > self.last() {
            return Err(Refusal::Beyond);
        }
        for distance in 0..self.last() {
            if distance < p && holds(&self.free, p - distance) {
                return Ok(Some(p - distance));
            }
            if p + distance <= self.last() && holds(&self.free, p + distance) {
                return Ok(Some(p + distance));
            }
        }
        Ok(None)
    }

    /// The free bay nearest to the post of sign s, or none.
    pub fn sign(&self, s: u64) -> Result<Option<u64>, Refusal> {
        if !(1..=16).contains(&s) {
            return Err(Refusal::NoSign);
        }
        let post = POSTS[(s - 1) as usize];
        if post > self.last() {
            return Err(Refusal::Beyond);
        }
        self.nearest(post)
    }

    /// The k-th free bay up to w.
    pub fn pick(&self, k: u64) -> Result<u64, Refusal> {
        if k == 0 {
            return Err(Refusal::NoBay);
        }
        let mut count = 0;
        for bay in 1..=self.last() {
            if holds(&self.free, bay) {
                count += 1;
                if count == k {
                    return Ok(bay);
                }
            }
        }
        Err(Refusal::TooFew)
    }

    /// Closes the round.
    pub fn close(self) -> Report {
        Report {
            handed: self.handed,
            stretches: self.stretches,
            place: self.place,
        }
    }
}
