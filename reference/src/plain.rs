//! The plain form: a bit for each bay (docs/PLAIN.md).

use crate::bits::{bit, has_bit_after, has_length, packed};
use crate::refusals::{Fault, Flaw};
use crate::sets::{Set, LARGEST_LAST};

/// The set of a lawful index, or the first refusal that fits.
pub fn open(u: u64, bits: &[u8]) -> Result<Set, Fault> {
    let fault = |flaw, part| {
        Err(Fault {
            flaw,
            form: "plain",
            part,
        })
    };

    if u == 0 || u > LARGEST_LAST {
        return fault(Flaw::Numbers, 0);
    }
    if !has_length(bits, u) {
        return fault(Flaw::Length, 1);
    }
    if has_bit_after(bits, u) {
        return fault(Flaw::Content, 1);
    }

    let mut set = Set::new();
    for i in 1..=u {
        set.push(bit(bits, i));
    }
    Ok(set)
}

/// Part 1 of a set.
pub fn fill(set: &[bool]) -> Vec<u8> {
    packed(set)
}
