// The library that is measured, through its C interface (`include/bays.h`).
use crate::form::{Form, Question, Sort};
use crate::told::{Fault, Report, Stored, Told};

#[rustfmt::skip]
unsafe extern "C" {
    fn bays_open(told: &Told, bytes: *const u8, bytes_len: usize, numbers: *const u16, numbers_len: usize) -> Fault;
    fn bays_ask(
        told: &Told, bytes: *const u8, bytes_len: usize, numbers: *const u16, numbers_len: usize, question: u32, sort: u32,
        places: *const u32, places_len: usize, answers: *mut u32, answers_len: usize,
    ) -> Fault;
    fn bays_measure(
        told: &Told, bytes: *const u8, bytes_len: usize, numbers: *const u16, numbers_len: usize, form: u32, size: u32, to: &mut Told,
    ) -> Fault;
    fn bays_fill(
        told: &Told, bytes: *const u8, bytes_len: usize, numbers: *const u16, numbers_len: usize, form: u32, size: u32, to: &mut Told,
        to_bytes: *mut u8, to_bytes_len: usize, to_numbers: *mut u16, to_numbers_len: usize,
    ) -> Fault;
    fn bays_sheet(
        f_told: &Told, f_bytes: *const u8, f_bytes_len: usize, f_numbers: *const u16, f_numbers_len: usize,
        c_told: &Told, c_bytes: *const u8, c_bytes_len: usize, c_numbers: *const u16, c_numbers_len: usize,
        place: u32, out: *mut u32, out_len: usize, report: &mut Report,
    ) -> Fault;
    fn bays_nearest(
        f_told: &Told, f_bytes: *const u8, f_bytes_len: usize, f_numbers: *const u16, f_numbers_len: usize,
        c_told: &Told, c_bytes: *const u8, c_bytes_len: usize, c_numbers: *const u16, c_numbers_len: usize,
        places: *const u32, places_len: usize, answers: *mut u32, answers_len: usize,
    ) -> Fault;
    fn bays_count(
        f_told: &Told, f_bytes: *const u8, f_bytes_len: usize, f_numbers: *const u16, f_numbers_len: usize,
        c_told: &Told, c_bytes: *const u8, c_bytes_len: usize, c_numbers: *const u16, c_numbers_len: usize,
        firsts: *const u32, firsts_len: usize, lasts: *const u32, lasts_len: usize, counts: *mut u32, counts_len: usize,
    ) -> Fault;
}

fn no_fault(fault: Fault) -> Result<(), Fault> {
    if fault == Fault::default() { Ok(()) } else { Err(fault) }
}

// Each call below hands the library pointers with the lengths of the slices that they are of.

/// Whether the index can be opened, or why not.
pub fn open(stored: Stored) -> Fault {
    let Stored { told, bytes, numbers } = stored;
    unsafe { bays_open(&told, bytes.as_ptr(), bytes.len(), numbers.as_ptr(), numbers.len()) }
}

/// Opens an index and asks it one question at many places.
#[rustfmt::skip]
pub fn ask(stored: Stored, question: Question, sort: Sort, places: &[u32], answers: &mut [u32]) -> Fault {
    let Stored { told, bytes, numbers } = stored;
    unsafe {
        bays_ask(
            &told, bytes.as_ptr(), bytes.len(), numbers.as_ptr(), numbers.len(), question as u32, sort as u32,
            places.as_ptr(), places.len(), answers.as_mut_ptr(), answers.len(),
        )
    }
}

/// What the set of an index takes in a form.
#[rustfmt::skip]
pub fn measure(stored: Stored, form: Form) -> Result<Told, Fault> {
    let Stored { told, bytes, numbers } = stored;
    let mut to = Told::default();
    let fault = unsafe {
        bays_measure(
            &told, bytes.as_ptr(), bytes.len(), numbers.as_ptr(), numbers.len(), form.number(), form.size(), &mut to,
        )
    };
    no_fault(fault).map(|()| to)
}

/// Fills the set of an index in a form to the fronts of two memories.
#[rustfmt::skip]
pub fn fill(stored: Stored, form: Form, to_bytes: &mut [u8], to_numbers: &mut [u16]) -> Result<Told, Fault> {
    let Stored { told, bytes, numbers } = stored;
    let mut to = Told::default();
    let fault = unsafe {
        bays_fill(
            &told, bytes.as_ptr(), bytes.len(), numbers.as_ptr(), numbers.len(), form.number(), form.size(), &mut to,
            to_bytes.as_mut_ptr(), to_bytes.len(), to_numbers.as_mut_ptr(), to_numbers.len(),
        )
    };
    no_fault(fault).map(|()| to)
}

/// A sheet from `place` on: the common bays as they fit, and what the round then tells.
#[rustfmt::skip]
pub fn sheet(f: Stored, c: Stored, place: u32, out: &mut [u32]) -> Result<Report, Fault> {
    let mut report = Report::default();
    let fault = unsafe {
        bays_sheet(
            &f.told, f.bytes.as_ptr(), f.bytes.len(), f.numbers.as_ptr(), f.numbers.len(),
            &c.told, c.bytes.as_ptr(), c.bytes.len(), c.numbers.as_ptr(), c.numbers.len(),
            place, out.as_mut_ptr(), out.len(), &mut report,
        )
    };
    no_fault(fault).map(|()| report)
}

/// The nearest free bay at each place.
#[rustfmt::skip]
pub fn nearest(f: Stored, c: Stored, places: &[u32], answers: &mut [u32]) -> Result<(), Fault> {
    no_fault(unsafe {
        bays_nearest(
            &f.told, f.bytes.as_ptr(), f.bytes.len(), f.numbers.as_ptr(), f.numbers.len(),
            &c.told, c.bytes.as_ptr(), c.bytes.len(), c.numbers.as_ptr(), c.numbers.len(),
            places.as_ptr(), places.len(), answers.as_mut_ptr(), answers.len(),
        )
    })
}

/// How many free bays lie from each first bay to its last.
#[rustfmt::skip]
pub fn count(f: Stored, c: Stored, firsts: &[u32], lasts: &[u32], counts: &mut [u32]) -> Result<(), Fault> {
    no_fault(unsafe {
        bays_count(
            &f.told, f.bytes.as_ptr(), f.bytes.len(), f.numbers.as_ptr(), f.numbers.len(),
            &c.told, c.bytes.as_ptr(), c.bytes.len(), c.numbers.as_ptr(), c.numbers.len(),
            firsts.as_ptr(), firsts.len(), lasts.as_ptr(), lasts.len(), counts.as_mut_ptr(), counts.len(),
        )
    })
}
