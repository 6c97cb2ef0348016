// Why opening and filling refuse, with the numbers of `docs/REFUSALS.md`.
use crate::told::Fault;

pub const NUMBERS_LAST: u32 = 1;
pub const LENGTH: u32 = 2;
pub const CONTENT: u32 = 3;
pub const NUMBERS_SIZE: u32 = 4;
pub const ROOM: u32 = 5;
pub const UNLAWFUL: u32 = 6;

/// Refuses the first index of a call by a number where something does not hold.
#[inline]
pub fn check(holds: bool, number: u32, part: u32) -> Result<(), Fault> {
    if holds { Ok(()) } else { Err(Fault { number, part, index: 1 }) }
}

/// The same fault, of the second index of a call.
pub fn of_second(fault: Fault) -> Fault {
    Fault { index: 2, ..fault }
}

/// Checks the last bay.
pub fn check_last(last: u32) -> Result<(), Fault> {
    check((1..=65_535).contains(&last), NUMBERS_LAST, 0)
}

/// Checks that there are just as many bytes as `n` bits take.
pub fn check_length(bytes: &[u8], n: u32, part: u32) -> Result<(), Fault> {
    check(bytes.len() == n.div_ceil(8) as usize, LENGTH, part)
}

/// Checks that the bits of the last byte after the `n`-th are 0.
pub fn check_spare(bytes: &[u8], n: u32, part: u32) -> Result<(), Fault> {
    let spare = if n.is_multiple_of(8) { 0 } else { bytes.last().map_or(0, |byte| byte >> (n % 8)) };
    check(spare == 0, CONTENT, part)
}
