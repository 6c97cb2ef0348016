//! Random sets of all shapes and sizes.

use crate::chance::Chance;
use crate::sets::Set;

const SMALL_EDGES: [u64; 16] = [1, 1, 2, 3, 7, 8, 9, 15, 16, 17, 31, 32, 33, 63, 64, 65];
/// Around powers of two, and around some posts of signs.
const MIDDLE_EDGES: [u64; 30] = [
    100, 121, 122, 127, 128, 129, 159, 160, 202, 231, 255, 256, 257, 310, 370, 371, 401, 402, 403, 511, 512, 513, 514, 767, 1000, 1023, 1024, 1025,
    1499, 1500,
];
const LARGE_EDGES: [u64; 16] =
    [4_095, 4_096, 4_097, 8_191, 8_192, 8_193, 12_288, 32_767, 32_768, 61_440, 65_534, 65_535, 65_535, 65_535, 65_535, 65_535];

/// A last bay: mostly a small one, sometimes one of the middle, seldom a large one.
pub fn last_bay(chance: &mut Chance) -> u64 {
    match chance.below(1_000) {
        0..=5 => large_last(chance),
        6..=7 => chance.between(1_501, 65_535),
        8..=59 => chance.choose(&MIDDLE_EDGES),
        60..=99 => chance.between(100, 1_500),
        100..=149 => chance.between(20, 30),
        150..=499 => chance.choose(&SMALL_EDGES),
        _ => chance.between(1, 70),
    }
}

/// A large last bay: the largest, or one at an edge.
pub fn large_last(chance: &mut Chance) -> u64 {
    chance.choose(&LARGE_EDGES)
}

/// A small last bay.
pub fn small_last(chance: &mut Chance) -> u64 {
    if chance.percent(40) {
        chance.choose(&SMALL_EDGES)
    } else {
        chance.between(1, 70)
    }
}

/// A set of any shape with the given last bay.
pub fn set_of(chance: &mut Chance, last: u64) -> Set {
    match chance.below(24) {
        0 => Set::empty(last),
        1 => Set::empty(last).turned(),
        2 => one_member(chance, last),
        3 => one_member(chance, last).turned(),
        4 => alternating(chance, last),
        5 | 6 => with_share(chance, last, 90),
        7..=9 => with_share(chance, last, 50),
        10 | 11 => with_share(chance, last, 10),
        12 => few(chance, last),
        13 => few(chance, last).turned(),
        14 | 15 => one_run(chance, last),
        16 => runs(chance, last, 1, 4, 1),
        17 => runs(chance, last, 1, 1, 5),
        18 | 19 => runs(chance, last, 1, 10, 10),
        20 => runs(chance, last, 1, 100, 100),
        21 => end_run(chance, last),
        _ => by_blocks(chance, last),
    }
}

/// A set with few members, whatever the last bay.
pub fn thin_set(chance: &mut Chance, last: u64) -> Set {
    match chance.below(4) {
        0 => Set::empty(last),
        1 => one_member(chance, last),
        _ => few(chance, last),
    }
}

/// A set of few members or of one run: short in the list form, or in large blocks.
pub fn simple_set(chance: &mut Chance, last: u64, run: bool) -> Set {
    if run {
        one_run(chance, last)
    } else {
        few(chance, last)
    }
}

fn one_member(chance: &mut Chance, last: u64) -> Set {
    let mut set = Set::empty(last);
    let bay = match chance.below(5) {
        0 => 1,
        1 => last,
        2 => (last + 1) / 2,
        3 => last.saturating_sub(1).max(1),
        _ => chance.between(1, last),
    };
    set.put(bay, true);
    set
}

fn alternating(chance: &mut Chance, last: u64) -> Set {
    let odd = chance.below(2);
    Set::of((1..=last).map(|bay| bay % 2 == odd).collect())
}

fn with_share(chance: &mut Chance, last: u64, share: u64) -> Set {
    Set::of((0..last).map(|_| chance.percent(share)).collect())
}

fn few(chance: &mut Chance, last: u64) -> Set {
    let mut set = Set::empty(last);
    for _ in 0..chance.between(1, 6) {
        let bay = if chance.one_in(4) { chance.choose(&[1, last]) } else { chance.between(1, last) };
        set.put(bay, true);
    }
    set
}

fn one_run(chance: &mut Chance, last: u64) -> Set {
    let first = if chance.one_in(3) { 1 } else { chance.between(1, last) };
    let end = if chance.one_in(3) { last } else { chance.between(first, last) };
    Set::of((1..=last).map(|bay| bay >= first && bay <= end).collect())
}

/// Runs of lengths from the shortest to the longest, with gaps of 1 to the widest between.
fn runs(chance: &mut Chance, last: u64, shortest: u64, longest: u64, widest: u64) -> Set {
    let mut members = Vec::new();
    let mut member = chance.one_in(2);
    while (members.len() as u64) < last {
        let length = if member { chance.between(shortest, longest) } else { chance.between(1, widest) };
        members.extend((0..length).map(|_| member));
        member = !member;
    }
    members.truncate(last as usize);
    Set::of(members)
}

/// Any set, but with a run that touches the end.
fn end_run(chance: &mut Chance, last: u64) -> Set {
    let share = chance.choose(&[0, 20, 50]);
    let mut set = with_share(chance, last, share);
    for bay in last - chance.below(last.min(20))..=last {
        set.put(bay, true);
    }
    set
}

/// Blocks of one size that are full, empty or mixed.
fn by_blocks(chance: &mut Chance, last: u64) -> Set {
    let size = chance.choose(&[2, 3, 4, 7, 8, 9, 16, 64, 256, 512, 4_095, 4_096]);
    let mut members = Vec::new();
    while (members.len() as u64) < last {
        match chance.below(3) {
            0 => members.extend((0..size).map(|_| true)),
            1 => members.extend((0..size).map(|_| false)),
            _ => {
                let share = chance.choose(&[3, 50, 97]);
                members.extend((0..size).map(|_| chance.percent(share)));
            }
        }
    }
    members.truncate(last as usize);
    Set::of(members)
}
