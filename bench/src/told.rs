// The structs of the C interface, which the plain Rust version takes too.

/// What an index opens from beside its memory: the form, the numbers, and the lengths of the parts.
#[repr(C)]
#[derive(Clone, Copy, Default, PartialEq, Eq, Debug)]
pub struct Told {
    pub form: u32,
    pub last: u32,
    pub number: u32,
    pub first: usize,
    pub second: usize,
    pub third: usize,
}

/// A refusal: its number, and in which part of which index; all 0 for none. Index 1 is the one that is read, or the free bays; 2 is the one
/// that is filled, or the class.
#[repr(C)]
#[derive(Clone, Copy, Default, PartialEq, Eq, Debug)]
pub struct Fault {
    pub number: u32,
    pub part: u32,
    pub index: u32,
}

/// What a round tells when it is closed.
#[repr(C)]
#[derive(Clone, Copy, Default, PartialEq, Eq, Debug)]
pub struct Report {
    pub handed: u32,
    pub stretches: u32,
    pub place: u32,
}

/// An index in memory: what is told of it, its bytes and its 16-bit numbers.
#[derive(Clone, Copy)]
pub struct Stored<'a> {
    pub told: Told,
    pub bytes: &'a [u8],
    pub numbers: &'a [u16],
}

impl Told {
    /// How many bytes all parts take together, and how many 16-bit numbers.
    pub fn lengths(&self) -> (usize, usize) {
        match self.form {
            1 => (0, self.first),
            _ => (self.first + self.second + self.third, 0),
        }
    }
}
