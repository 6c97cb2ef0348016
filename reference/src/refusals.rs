//! The refusals: their numbers, and how they read (docs/REFUSALS.md).

use std::fmt;

/// What is wrong with an index. The room of a memory, number 5, is never short in the console.
#[derive(Clone, Copy, Debug, PartialEq, Eq)]
pub enum Flaw {
    Numbers = 1,
    Length = 2,
    Content = 3,
    BlockSize = 4,
    Unlawful = 6,
}

/// A fault of an index: what is wrong, and in which form and part. Part 0 is the numbers.
#[derive(Clone, Copy, Debug, PartialEq, Eq)]
pub struct Fault {
    pub flaw: Flaw,
    pub form: &'static str,
    pub part: u8,
}

impl fmt::Display for Fault {
    fn fmt(&self, f: &mut fmt::Formatter<'_>) -> fmt::Result {
        write!(f, "refused {} {} {}", self.flaw as u8, self.form, self.part)
    }
}

/// Why a level, or a call of a round, is refused.
#[derive(Clone, Copy, Debug, PartialEq, Eq)]
pub enum Refusal {
    NoBay = 7,
    NoSign = 8,
    Beyond = 9,
    Behind = 10,
    TooFew = 11,
}

impl fmt::Display for Refusal {
    fn fmt(&self, f: &mut fmt::Formatter<'_>) -> fmt::Result {
        write!(f, "refused {}", *self as u8)
    }
}
