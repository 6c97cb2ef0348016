//! Sets of bays and the six questions that are asked of them (docs/SETS.md).

/// The answer for bay i stands at place i - 1, and the length is the last bay.
pub type Set = Vec<bool>;

#[derive(Clone, Copy, Debug, PartialEq, Eq)]
pub enum Sort {
    Members,
    Others,
}

/// The largest last bay that a set can have.
pub const LARGEST_LAST: u64 = 65_535;

/// The last bay.
pub fn last(set: &[bool]) -> u64 {
    set.len() as u64
}

/// Whether bay i is a member. What is no bay is none.
pub fn holds(set: &[bool], i: u64) -> bool {
    i >= 1 && i <= last(set) && set[(i - 1) as usize]
}

/// Whether i is a bay of the sort. What is no bay is of neither sort.
pub fn is_of(set: &[bool], sort: Sort, i: u64) -> bool {
    if i < 1 || i > last(set) {
        return false;
    }
    match sort {
        Sort::Members => holds(set, i),
        Sort::Others => !holds(set, i),
    }
}

/// The smallest bay of the sort at or after i. 0 is read as 1.
pub fn next(set: &[bool], sort: Sort, i: u64) -> Option<u64> {
    let first = if i == 0 { 1 } else { i };
    (first..=last(set)).find(|&bay| is_of(set, sort, bay))
}

/// The largest bay of the sort at or before i. What is beyond the last bay is read as the last bay.
pub fn previous(set: &[bool], sort: Sort, i: u64) -> Option<u64> {
    let first = if i > last(set) { last(set) } else { i };
    (1..=first).rev().find(|&bay| is_of(set, sort, bay))
}

/// How many bays of the sort lie from 1 to i. What is beyond the last bay is read as the last bay.
pub fn rank(set: &[bool], sort: Sort, i: u64) -> u64 {
    let end = if i > last(set) { last(set) } else { i };
    let mut count = 0;
    for bay in 1..=end {
        if is_of(set, sort, bay) {
            count += 1;
        }
    }
    count
}

/// The n-th smallest bay of the sort.
pub fn select(set: &[bool], sort: Sort, n: u64) -> Option<u64> {
    let mut count = 0;
    for bay in 1..=last(set) {
        if is_of(set, sort, bay) {
            count += 1;
            if count == n {
                return Some(bay);
            }
        }
    }
    None
}
