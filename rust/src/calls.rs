//! The functions of the library, one to one, over memory of the caller's. A call that is refused has written nothing.
//!
//! They are safe: what the library asks of a C caller, that pointers are aligned and not null, that so many elements lie there, and that what
//! is written to overlaps nothing, holds of every Rust slice and reference. The library asks nothing else, and answers for all contents
//! and numbers.
use crate::{ffi, Fault, Report, Told};

/// What an index is opened from: what was told of it, and the two memories at whose fronts its parts lie, one behind the other.
#[derive(Clone, Copy, Debug)]
pub struct Record<'a> {
    pub told: Told,
    pub bytes: &'a [u8],
    pub numbers: &'a [u16],
}

/// Whether the index is opened, or why not.
pub fn open(from: Record) -> Result<(), Fault> {
    let Record {
        told,
        bytes,
        numbers,
    } = from;
    // SAFETY: each pointer is of a slice or reference that is borrowed for the call, beside the slice's own length. So below.
    unsafe {
        ffi::bays_open(
            &told,
            bytes.as_ptr(),
            bytes.len(),
            numbers.as_ptr(),
            numbers.len(),
        )
    }
    .checked()
}

/// Asks one question at each place: `answers[k]` is the answer at `places[k]`, for as many as both have; behind that, `answers` is kept.
pub fn ask(
    from: Record,
    question: u32,
    sort: u32,
    places: &[u32],
    answers: &mut [u32],
) -> Result<(), Fault> {
    let Record {
        told,
        bytes,
        numbers,
    } = from;
    // SAFETY: as in `open`.
    unsafe {
        ffi::bays_ask(
            &told,
            bytes.as_ptr(),
            bytes.len(),
            numbers.as_ptr(),
            numbers.len(),
            question,
            sort,
            places.as_ptr(),
            places.len(),
            answers.as_mut_ptr(),
            answers.len(),
        )
    }
    .checked()
}

/// Tells in `to` what the set takes in a form.
pub fn measure(from: Record, form: u32, size: u32, to: &mut Told) -> Result<(), Fault> {
    let Record {
        told,
        bytes,
        numbers,
    } = from;
    // SAFETY: as in `open`.
    unsafe {
        ffi::bays_measure(
            &told,
            bytes.as_ptr(),
            bytes.len(),
            numbers.as_ptr(),
            numbers.len(),
            form,
            size,
            to,
        )
    }
    .checked()
}

/// Fills the set in a form, into the front of `to_bytes` or of `to_numbers`, and tells in `to` with what it is opened there.
pub fn fill(
    from: Record,
    form: u32,
    size: u32,
    to: &mut Told,
    to_bytes: &mut [u8],
    to_numbers: &mut [u16],
) -> Result<(), Fault> {
    let Record {
        told,
        bytes,
        numbers,
    } = from;
    // SAFETY: as in `open`.
    unsafe {
        ffi::bays_fill(
            &told,
            bytes.as_ptr(),
            bytes.len(),
            numbers.as_ptr(),
            numbers.len(),
            form,
            size,
            to,
            to_bytes.as_mut_ptr(),
            to_bytes.len(),
            to_numbers.as_mut_ptr(),
            to_numbers.len(),
        )
    }
    .checked()
}

/// Writes the sheet of a fresh round that goes to a place, and tells in `report` what the round gives when it is closed after it.
pub fn sheet(
    free: Record,
    class: Record,
    place: u32,
    out: &mut [u32],
    report: &mut Report,
) -> Result<(), Fault> {
    // SAFETY: as in `open`.
    unsafe {
        ffi::bays_sheet(
            &free.told,
            free.bytes.as_ptr(),
            free.bytes.len(),
            free.numbers.as_ptr(),
            free.numbers.len(),
            &class.told,
            class.bytes.as_ptr(),
            class.bytes.len(),
            class.numbers.as_ptr(),
            class.numbers.len(),
            place,
            out.as_mut_ptr(),
            out.len(),
            report,
        )
    }
    .checked()
}

/// Writes the free bay nearest to each place, or 0.
pub fn nearest(
    free: Record,
    class: Record,
    places: &[u32],
    answers: &mut [u32],
) -> Result<(), Fault> {
    // SAFETY: as in `open`.
    unsafe {
        ffi::bays_nearest(
            &free.told,
            free.bytes.as_ptr(),
            free.bytes.len(),
            free.numbers.as_ptr(),
            free.numbers.len(),
            &class.told,
            class.bytes.as_ptr(),
            class.bytes.len(),
            class.numbers.as_ptr(),
            class.numbers.len(),
            places.as_ptr(),
            places.len(),
            answers.as_mut_ptr(),
            answers.len(),
        )
    }
    .checked()
}

/// Writes how many free bays lie from each first bay to its last one, or 0.
pub fn count(
    free: Record,
    class: Record,
    firsts: &[u32],
    lasts: &[u32],
    counts: &mut [u32],
) -> Result<(), Fault> {
    // SAFETY: as in `open`.
    unsafe {
        ffi::bays_count(
            &free.told,
            free.bytes.as_ptr(),
            free.bytes.len(),
            free.numbers.as_ptr(),
            free.numbers.len(),
            &class.told,
            class.bytes.as_ptr(),
            class.bytes.len(),
            class.numbers.as_ptr(),
            class.numbers.len(),
            firsts.as_ptr(),
            firsts.len(),
            lasts.as_ptr(),
            lasts.len(),
            counts.as_mut_ptr(),
            counts.len(),
        )
    }
    .checked()
}
