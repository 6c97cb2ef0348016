//! Why a call is refused.
use std::error::Error;
use std::fmt;

/// Why a call was refused. `docs/REFUSALS.md` has the numbers 1 to 11; 12, 13 and 14 are a form, a question and a sort whose number names
/// nothing.
#[derive(Clone, Copy, Debug, Default, PartialEq, Eq, Hash)]
#[repr(C)]
pub struct Fault {
    /// The number of the refusal. 0 never comes in an `Err`.
    pub number: u32,
    /// The part of the index: 0 is its numbers.
    pub part: u32,
    /// Which index of the call: 1 is the one that is read, or the free bays; 2 the one that is measured or filled, or the class; 0 neither.
    pub index: u32,
}

impl Fault {
    /// The answer of a call of the library.
    pub(crate) fn checked(self) -> Result<(), Fault> {
        if self.number == 0 {
            Ok(())
        } else {
            Err(self)
        }
    }
}

impl fmt::Display for Fault {
    fn fmt(&self, f: &mut fmt::Formatter<'_>) -> fmt::Result {
        write!(f, "refused {}", self.number)?;
        match self.index {
            0 => Ok(()),
            index => write!(f, ", part {} of index {index}", self.part),
        }
    }
}

impl Error for Fault {}
