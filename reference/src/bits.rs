//! Bitvectors: where a bit stands in bytes (docs/PLAIN.md, "Bitvectors").

/// How many bytes a bitvector of n bits takes: n / 8, rounded up.
pub fn bytes_of(n: u64) -> u64 {
    n.div_ceil(8)
}

/// Whether there are exactly as many bytes as a bitvector of n bits takes.
pub fn has_length(bytes: &[u8], n: u64) -> bool {
    bytes.len() as u64 == bytes_of(n)
}

/// Bit i, counted from 1. The bytes must have it.
pub fn bit(bytes: &[u8], i: u64) -> bool {
    let byte = bytes[((i - 1) / 8) as usize];
    let place = (i - 1) % 8;
    byte & (1 << place) != 0
}

/// Whether a bit after bit n is 1. The bytes must have the length of a bitvector of n bits.
pub fn has_bit_after(bytes: &[u8], n: u64) -> bool {
    for i in n + 1..=bytes_of(n) * 8 {
        if bit(bytes, i) {
            return true;
        }
    }
    false
}

/// The bytes of a bitvector of these bits, the first being bit 1. The bits after the last are 0.
pub fn packed(bits: &[bool]) -> Vec<u8> {
    let mut bytes = vec![0; bytes_of(bits.len() as u64) as usize];
    for i in 1..=bits.len() {
        if bits[i - 1] {
            bytes[(i - 1) / 8] |= 1 << ((i - 1) % 8);
        }
    }
    bytes
}
