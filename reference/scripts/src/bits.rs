//! Bitvectors: bit i, counted from 1, stands in byte (i - 1) / 8 at place (i - 1) mod 8, the lowest place first.

pub fn bytes_for(bits: u64) -> u64 {
    bits.div_ceil(8)
}

pub fn pack(bits: &[bool]) -> Vec<u8> {
    let mut bytes = vec![0; bytes_for(bits.len() as u64) as usize];
    for (place, bit) in bits.iter().enumerate() {
        if *bit {
            bytes[place / 8] |= 1 << (place % 8);
        }
    }
    bytes
}

pub fn bit(bytes: &[u8], number: u64) -> bool {
    let place = number as usize - 1;
    bytes[place / 8] >> (place % 8) & 1 == 1
}

pub fn flip(bytes: &mut [u8], number: u64) {
    let place = number as usize - 1;
    bytes[place / 8] ^= 1 << (place % 8);
}

/// Whether a bit after the given number of bits is 1.
pub fn has_spare(bytes: &[u8], bits: u64) -> bool {
    (bits + 1..=bytes.len() as u64 * 8).any(|number| bit(bytes, number))
}

/// The numbers of the ones among the first bits.
pub fn ones(bytes: &[u8], bits: u64) -> Vec<u64> {
    (1..=bits).filter(|number| bit(bytes, *number)).collect()
}
