//! The layers: a set turned, and the level of a set from one bay to another (docs/LAYERS.md).

use crate::refusals::Refusal;
use crate::sets::{holds, last, Set};

/// The same bays, with members and non-members exchanged.
pub fn turned(below: &[bool]) -> Set {
    let mut set = Set::new();
    for bay in 1..=last(below) {
        set.push(!holds(below, bay));
    }
    set
}

/// The bays a to b of a set, counted from 1.
pub fn level(below: &[bool], a: u64, b: u64) -> Result<Set, Refusal> {
    if a == 0 || b == 0 || a > b {
        return Err(Refusal::NoBay);
    }
    if b > last(below) {
        return Err(Refusal::Beyond);
    }
    let mut set = Set::new();
    for i in 1..=b - a + 1 {
        set.push(holds(below, a + i - 1));
    }
    Ok(set)
}
