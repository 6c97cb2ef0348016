// What each form's index answers.
use super::words::Words;
use crate::form::Sort;

/// An opened index. Each question answers for every number, as `docs/SETS.md` says.
pub trait Set {
    fn last(&self) -> u32;
    fn holds(&self, i: u32) -> bool;
    fn next(&self, sort: Sort, i: u32) -> Option<u32>;
    fn previous(&self, sort: Sort, i: u32) -> Option<u32>;
    fn rank(&self, sort: Sort, i: u32) -> u32;
    fn select(&self, sort: Sort, n: u32) -> Option<u32>;

    /// How many members lie from `a` to `b`, which are bays.
    #[inline]
    fn count(&self, a: u32, b: u32) -> u32 {
        self.rank(Sort::Members, b) - self.rank(Sort::Members, a - 1)
    }

    /// Writes the set into words that are 0.
    fn decode(&self, words: &mut Words);
}

/// How many of `to` bays are of the sort, where so many are members.
#[inline]
pub fn share(sort: Sort, members: u32, to: u32) -> u32 {
    match sort {
        Sort::Members => members,
        Sort::Others => to - members,
    }
}
