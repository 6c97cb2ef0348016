//! The zombit form: uniform blocks by a bit in U and in O, and the bays of the mixed blocks in M (docs/ZOMBIT.md).

use crate::bits::{bit, has_bit_after, has_length, packed};
use crate::refusals::{Fault, Flaw};
use crate::sets::{holds, last, Set, LARGEST_LAST};

pub const FORM: &str = "zombit";

/// The parts 1, 2 and 3: U, O and M.
#[derive(Clone, Debug, PartialEq, Eq)]
pub struct Parts {
    pub uniform: Vec<u8>,
    pub marked: Vec<u8>,
    pub mixed: Vec<u8>,
}

fn fault<T>(flaw: Flaw, part: u8) -> Result<T, Fault> {
    Err(Fault {
        flaw,
        form: FORM,
        part,
    })
}

fn is_block_size(size: u64) -> bool {
    (2..=4096).contains(&size)
}

/// In how many blocks the bays 1 to u lie: u / size, rounded up.
fn blocks_of(u: u64, size: u64) -> u64 {
    u.div_ceil(size)
}

/// The set of a lawful index, or the first refusal that fits.
pub fn open(u: u64, size: u64, parts: &Parts) -> Result<Set, Fault> {
    let Parts {
        uniform,
        marked,
        mixed,
    } = parts;

    if u == 0 || u > LARGEST_LAST {
        return fault(Flaw::Numbers, 0);
    }
    if !is_block_size(size) {
        return fault(Flaw::BlockSize, 0);
    }

    let blocks = blocks_of(u, size);
    if !has_length(uniform, blocks) {
        return fault(Flaw::Length, 1);
    }
    if !has_length(marked, blocks) {
        return fault(Flaw::Length, 2);
    }
    let mut mixed_blocks = 0;
    for k in 0..blocks {
        if !bit(uniform, k + 1) {
            mixed_blocks += 1;
        }
    }
    if !has_length(mixed, mixed_blocks * size) {
        return fault(Flaw::Length, 3);
    }

    if has_bit_after(uniform, blocks) {
        return fault(Flaw::Content, 1);
    }
    if has_bit_after(marked, blocks) {
        return fault(Flaw::Content, 2);
    }
    if has_bit_after(mixed, mixed_blocks * size) {
        return fault(Flaw::Content, 3);
    }

    if !is_marked_lawful(u, size, parts) {
        return fault(Flaw::Unlawful, 2);
    }
    if !is_mixed_lawful(u, size, parts) {
        return fault(Flaw::Unlawful, 3);
    }

    Ok(decoded(u, size, parts))
}

/// O: each mixed block has its bit in O; no uniform block with its bit in O reaches past bay u.
fn is_marked_lawful(u: u64, size: u64, parts: &Parts) -> bool {
    for k in 0..blocks_of(u, size) {
        let is_uniform = bit(&parts.uniform, k + 1);
        let is_marked = bit(&parts.marked, k + 1);
        let reaches_past = k * size + size > u;
        if !is_uniform && !is_marked {
            return false;
        }
        if is_uniform && is_marked && reaches_past {
            return false;
        }
    }
    true
}

/// M: no mixed block is all 0 or all 1; no bit of a bay past u is 1.
fn is_mixed_lawful(u: u64, size: u64, parts: &Parts) -> bool {
    let mut z = 0; // the zeros among the first k bits of U
    for k in 0..blocks_of(u, size) {
        if bit(&parts.uniform, k + 1) {
            continue;
        }
        let mut ones = 0;
        for j in 1..=size {
            if bit(&parts.mixed, z * size + j) {
                ones += 1;
                if k * size + j > u {
                    return false;
                }
            }
        }
        if ones == 0 || ones == size {
            return false;
        }
        z += 1;
    }
    true
}

/// The set that lawful parts stand for.
fn decoded(u: u64, size: u64, parts: &Parts) -> Set {
    let mut set = Set::new();
    let mut z = 0; // the zeros among the first k bits of U
    for k in 0..blocks_of(u, size) {
        let is_uniform = bit(&parts.uniform, k + 1);
        for j in 1..=size {
            if k * size + j > u {
                break;
            }
            if is_uniform {
                set.push(bit(&parts.marked, k + 1));
            } else {
                set.push(bit(&parts.mixed, z * size + j));
            }
        }
        if !is_uniform {
            z += 1;
        }
    }
    set
}

/// The parts of a set, or the refusal of the block size.
pub fn fill(set: &[bool], size: u64) -> Result<Parts, Fault> {
    if !is_block_size(size) {
        return fault(Flaw::BlockSize, 0);
    }
    let mut uniform = Vec::new();
    let mut marked = Vec::new();
    let mut mixed = Vec::new();
    for k in 0..blocks_of(last(set), size) {
        // The bays of the block. What lies past the last bay is no member.
        let mut block = Vec::new();
        let mut members = 0;
        for j in 1..=size {
            let member = holds(set, k * size + j);
            block.push(member);
            if member {
                members += 1;
            }
        }
        let is_uniform = members == 0 || members == size;
        uniform.push(is_uniform);
        marked.push(members > 0);
        if !is_uniform {
            mixed.extend(block);
        }
    }
    Ok(Parts {
        uniform: packed(&uniform),
        marked: packed(&marked),
        mixed: packed(&mixed),
    })
}
