//! Bays, counts and other numbers: at the edges, around changes, and anywhere.

use crate::chance::Chance;
use crate::sets::Set;

/// Far numbers, which lie beyond every garage.
pub const FAR: [u64; 8] = [65_535, 65_536, 65_537, 131_072, 2_147_483_647, 2_147_483_648, 4_294_967_294, 4_294_967_295];

/// A place to ask a question at.
pub fn place(chance: &mut Chance, set: &Set, size: u64) -> u64 {
    let last = set.last();
    match chance.below(20) {
        0 | 1 => 0,
        2 => 1,
        3 => last - 1,
        4 | 5 => last,
        6 => last + 1,
        7 | 8 => chance.choose(&FAR),
        9 => (chance.between(0, last / size) * size + chance.below(3)).saturating_sub(1),
        10 => (chance.between(0, last / 8) * 8 + chance.below(3)).saturating_sub(1),
        11 => (chance.between(0, last / 64) * 64 + chance.below(3)).saturating_sub(1),
        12..=14 => {
            let from = chance.between(1, last);
            (set.change_from(from) + chance.below(3)).saturating_sub(1)
        }
        15 if chance.one_in(4) => chance.below(1 << 32),
        _ => chance.between(1, last),
    }
}

/// A number of a bay among so many of its sort.
pub fn ordinal(chance: &mut Chance, count: u64, last: u64) -> u64 {
    match chance.below(16) {
        0 => 0,
        1 | 2 => 1,
        3 => count.saturating_sub(1),
        4 | 5 => count,
        6 | 7 => count + 1,
        8 => last,
        9 => last + 1,
        10 => chance.choose(&FAR),
        11 if chance.one_in(4) => chance.below(1 << 32),
        _ => chance.between(1, count),
    }
}

/// Two bays, in most cases the first at or before the second and both up to the last.
pub fn bounds(chance: &mut Chance, last: u64) -> (u64, u64) {
    let far = chance.choose(&FAR);
    let middle = chance.between(1, last);
    match chance.below(24) {
        0 => (0, middle),
        1 => (middle, 0),
        2 => (0, chance.choose(&[0, last + 1, far])),
        3 => (middle + 1, middle),
        4 => (last, 1),
        5 => (far, middle),
        6 => (1, last + 1),
        7 => (middle, last + 1),
        8 => (last + 1, last + 1),
        9 => (last + 1, last),
        10 => (middle, far),
        11 => (far, far),
        12 => (middle, middle),
        13 => (1, last),
        _ => good_bounds(chance, last),
    }
}

/// Two bays that a level can have.
pub fn good_bounds(chance: &mut Chance, last: u64) -> (u64, u64) {
    match chance.below(8) {
        0 => (1, last),
        1 => (last, last),
        2 => (1, chance.between(1, last)),
        3 => (chance.between(1, last), last),
        4 => {
            let first = chance.between(1, last);
            (first, chance.between(first, last))
        }
        _ => {
            let first = chance.between(1, last / 4 + 1);
            (first, chance.between(first.max(last - last / 4), last))
        }
    }
}
