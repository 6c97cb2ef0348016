//! Block sizes, good and bad.

use crate::chance::Chance;

pub const BAD: [u64; 7] = [0, 1, 1, 4_097, 4_097, 8_192, 4_294_967_295];

/// A block size from 2 to 4,096 that is interesting for the last bay.
pub fn good(chance: &mut Chance, last: u64) -> u64 {
    let size = match chance.below(100) {
        0..=39 => chance.choose(&[2, 2, 2, 3, 3, 4, 7, 8, 8, 9]),
        40..=49 => chance.choose(&[16, 32, 63, 64, 64, 65]),
        50..=54 => chance.choose(&[255, 256, 257]),
        55..=60 => chance.choose(&[4_095, 4_096, 4_096]),
        61..=75 => last + chance.below(3) - 1,
        76..=80 => divisor(chance, last),
        81..=84 => last / chance.between(2, 4) + chance.below(2),
        85..=96 => chance.between(2, 70),
        _ => chance.between(2, 4_096),
    };
    size.clamp(2, 4_096)
}

/// A large block size, for large sets: at the edges, or one by which 65,535 can be divided.
pub fn large(chance: &mut Chance) -> u64 {
    chance.choose(&[255, 256, 257, 771, 1_285, 2_048, 3_855, 4_094, 4_095, 4_096, 4_096])
}

/// A size by which the last bay can be divided, if there is one.
fn divisor(chance: &mut Chance, last: u64) -> u64 {
    let sizes: Vec<u64> = (2..=last.min(4_096)).filter(|size| last % size == 0).collect();
    if sizes.is_empty() {
        2
    } else {
        chance.choose(&sizes)
    }
}
