//! The list form: the members, the smallest first (docs/LIST.md).

use crate::refusals::{Fault, Flaw};
use crate::sets::{holds, last, Set, LARGEST_LAST};

/// The set of a lawful index, or the first refusal that fits.
pub fn open(u: u64, numbers: &[u64]) -> Result<Set, Fault> {
    let fault = |flaw, part| {
        Err(Fault {
            flaw,
            form: "list",
            part,
        })
    };

    if u == 0 || u > LARGEST_LAST {
        return fault(Flaw::Numbers, 0);
    }
    let mut before = 0; // no bay, so that the first number is 1 or above
    for &number in numbers {
        if number == 0 || number <= before || number > u {
            return fault(Flaw::Content, 1);
        }
        before = number;
    }

    let mut set = vec![false; u as usize];
    for &number in numbers {
        set[(number - 1) as usize] = true;
    }
    Ok(set)
}

/// Part 1 of a set.
pub fn fill(set: &[bool]) -> Vec<u64> {
    let mut numbers = Vec::new();
    for bay in 1..=last(set) {
        if holds(set, bay) {
            numbers.push(bay);
        }
    }
    numbers
}
