// The libraries beside: sdsl-lite as a bit_vector and as an sd_vector, and CRoaring, through `shim/`.
use crate::form::Question;
use std::ffi::c_void;
use std::fmt;

type New = unsafe extern "C" fn(u32, *const u32, usize) -> *mut c_void;
type Free = unsafe extern "C" fn(*mut c_void);
type Ask = unsafe extern "C" fn(*const c_void, u32, *const u32, usize, *mut u32);
type Nearest = unsafe extern "C" fn(*const c_void, *const u32, usize, *mut u32);
type Count = unsafe extern "C" fn(*const c_void, *const u32, *const u32, usize, *mut u32);

#[link(name = "shim", kind = "static")]
unsafe extern "C" {
    fn bit_vector_new(last: u32, members: *const u32, n: usize) -> *mut c_void;
    fn bit_vector_free(set: *mut c_void);
    fn bit_vector_ask(set: *const c_void, question: u32, places: *const u32, n: usize, answers: *mut u32);
    fn bit_vector_nearest(set: *const c_void, places: *const u32, n: usize, answers: *mut u32);
    fn bit_vector_count(set: *const c_void, firsts: *const u32, lasts: *const u32, n: usize, counts: *mut u32);
    fn sd_vector_new(last: u32, members: *const u32, n: usize) -> *mut c_void;
    fn sd_vector_free(set: *mut c_void);
    fn sd_vector_ask(set: *const c_void, question: u32, places: *const u32, n: usize, answers: *mut u32);
    fn sd_vector_nearest(set: *const c_void, places: *const u32, n: usize, answers: *mut u32);
    fn sd_vector_count(set: *const c_void, firsts: *const u32, lasts: *const u32, n: usize, counts: *mut u32);
    fn roaring_new(members: *const u32, n: usize) -> *mut c_void;
    fn roaring_free(set: *mut c_void);
    fn roaring_ask(set: *const c_void, question: u32, places: *const u32, n: usize, answers: *mut u32);
    fn roaring_nearest(set: *const c_void, places: *const u32, n: usize, answers: *mut u32);
    fn roaring_count(set: *const c_void, firsts: *const u32, lasts: *const u32, n: usize, counts: *mut u32);
    fn roaring_list(free: *const c_void, class: *const c_void, out: *mut u32) -> u32;
}

unsafe extern "C" fn roaring_of(_: u32, members: *const u32, n: usize) -> *mut c_void {
    unsafe { roaring_new(members, n) }
}

/// A library, and how it keeps a set.
#[derive(Clone, Copy, PartialEq, Eq, PartialOrd, Ord, Debug)]
pub enum Library {
    BitVector,
    SdVector,
    Roaring,
}

pub const LIBRARIES: [Library; 3] = [Library::BitVector, Library::SdVector, Library::Roaring];

impl fmt::Display for Library {
    fn fmt(&self, f: &mut fmt::Formatter) -> fmt::Result {
        f.pad(match self {
            Library::BitVector => "sdsl bit_vector",
            Library::SdVector => "sdsl sd_vector",
            Library::Roaring => "CRoaring",
        })
    }
}

struct Calls {
    new: New,
    free: Free,
    ask: Ask,
    nearest: Nearest,
    count: Count,
}

impl Library {
    fn calls(self) -> Calls {
        match self {
            Library::BitVector => Calls {
                new: bit_vector_new,
                free: bit_vector_free,
                ask: bit_vector_ask,
                nearest: bit_vector_nearest,
                count: bit_vector_count,
            },
            Library::SdVector => {
                Calls { new: sd_vector_new, free: sd_vector_free, ask: sd_vector_ask, nearest: sd_vector_nearest, count: sd_vector_count }
            }
            Library::Roaring => {
                Calls { new: roaring_of, free: roaring_free, ask: roaring_ask, nearest: roaring_nearest, count: roaring_count }
            }
        }
    }
}

/// A set as a library keeps it.
pub struct Foreign {
    calls: Calls,
    set: *mut c_void,
}

impl Foreign {
    /// The set of the bays 1 to `last` with these members, which rise.
    pub fn new(library: Library, last: u32, members: &[u32]) -> Foreign {
        let calls = library.calls();
        // The call reads just so many members.
        let set = unsafe { (calls.new)(last, members.as_ptr(), members.len()) };
        Foreign { calls, set }
    }

    /// The answers to one question about members, at places from 1 to the last bay.
    pub fn ask(&self, question: Question, places: &[u32], answers: &mut [u32]) {
        let answers = &mut answers[..places.len()];
        // The call reads so many places, and writes as many answers.
        unsafe { (self.calls.ask)(self.set, question as u32, places.as_ptr(), places.len(), answers.as_mut_ptr()) }
    }

    /// The member nearest to each place, the lower at equal distance; 0 for none.
    pub fn nearest(&self, places: &[u32], answers: &mut [u32]) {
        let answers = &mut answers[..places.len()];
        // As above.
        unsafe { (self.calls.nearest)(self.set, places.as_ptr(), places.len(), answers.as_mut_ptr()) }
    }

    /// How many members lie from each first bay to its last.
    pub fn count(&self, firsts: &[u32], lasts: &[u32], counts: &mut [u32]) {
        let (lasts, counts) = (&lasts[..firsts.len()], &mut counts[..firsts.len()]);
        // The call reads so many first and last bays, and writes as many counts.
        unsafe { (self.calls.count)(self.set, firsts.as_ptr(), lasts.as_ptr(), firsts.len(), counts.as_mut_ptr()) }
    }

    /// Writes the common members of two bitmaps of CRoaring to memory with room for all bays.
    pub fn list(free: &Foreign, class: &Foreign, out: &mut [u32]) -> usize {
        assert!(out.len() >= 65_535);
        // The call writes at most as many members as there are bays.
        unsafe { roaring_list(free.set, class.set, out.as_mut_ptr()) as usize }
    }
}

impl Drop for Foreign {
    fn drop(&mut self) {
        // The set was made by `new` of the same library, and is not used again.
        unsafe { (self.calls.free)(self.set) }
    }
}
