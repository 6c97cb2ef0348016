//! The pioneer form: the first bay of each run, and the sums of the run lengths (docs/PIONEER.md).

use crate::bits::{bit, has_bit_after, has_length, packed};
use crate::refusals::{Fault, Flaw};
use crate::sets::{holds, last, Set, LARGEST_LAST};

/// A run: the bay where it begins, and the bay behind it.
struct Run {
    begins: u64,
    behind: u64,
}

/// The set of a lawful index, or the first refusal that fits.
pub fn open(u: u64, n: u64, starts: &[u8], sums: &[u8]) -> Result<Set, Fault> {
    let fault = |flaw, part| {
        Err(Fault {
            flaw,
            form: "pioneer",
            part,
        })
    };

    if u == 0 || u > LARGEST_LAST || n > u {
        return fault(Flaw::Numbers, 0);
    }
    if !has_length(starts, u) {
        return fault(Flaw::Length, 1);
    }
    if !has_length(sums, n) {
        return fault(Flaw::Length, 2);
    }
    if has_bit_after(starts, u) {
        return fault(Flaw::Content, 1);
    }
    if has_bit_after(sums, n) {
        return fault(Flaw::Content, 2);
    }
    match lawful_runs(u, n, starts, sums) {
        None => fault(Flaw::Unlawful, 2),
        Some(runs) => Ok(decoded(u, &runs)),
    }
}

/// The runs that the parts tell, or none where the parts are not lawful.
fn lawful_runs(u: u64, n: u64, starts: &[u8], sums: &[u8]) -> Option<Vec<Run>> {
    let start_ones = ones(starts, u);
    let sum_ones = ones(sums, n);

    // Both parts have equally many ones.
    if start_ones.len() != sum_ones.len() {
        return None;
    }
    // Bit n of the sums is 1, where n is above 0.
    if n > 0 && !bit(sums, n) {
        return None;
    }

    let mut runs = Vec::new();
    for r in 0..start_ones.len() {
        let begins = start_ones[r];
        let sum_before = if r == 0 { 0 } else { sum_ones[r - 1] };
        let length = sum_ones[r] - sum_before;
        let behind = begins + length;
        // No run reaches past u.
        if behind > u + 1 {
            return None;
        }
        // No run reaches or touches the next.
        if r + 1 < start_ones.len() && behind >= start_ones[r + 1] {
            return None;
        }
        runs.push(Run { begins, behind });
    }
    Some(runs)
}

/// Which of the bits 1 to n are 1, in rising order.
fn ones(bytes: &[u8], n: u64) -> Vec<u64> {
    let mut ones = Vec::new();
    for i in 1..=n {
        if bit(bytes, i) {
            ones.push(i);
        }
    }
    ones
}

/// The set of the bays that lie in a run.
fn decoded(u: u64, runs: &[Run]) -> Set {
    let mut set = vec![false; u as usize];
    for run in runs {
        for bay in run.begins..run.behind {
            set[(bay - 1) as usize] = true;
        }
    }
    set
}

/// What a set is in this form: the number of its members, and the parts 1 and 2.
pub fn fill(set: &[bool]) -> (u64, Vec<u8>, Vec<u8>) {
    let mut starts = Vec::new();
    let mut sums = Vec::new();
    for bay in 1..=last(set) {
        starts.push(holds(set, bay) && !holds(set, bay - 1));
        if holds(set, bay) {
            sums.push(!holds(set, bay + 1));
        }
    }
    (sums.len() as u64, packed(&starts), packed(&sums))
}
