//! What is told of an index.
use crate::Form;

/// What an index is opened with, beside its bytes: the number of its form, its numbers, and the lengths of its parts.
///
/// `number` is the block size of a zombit index and the number of members of a pioneer index, and else 0. The lengths are in bytes, that
/// of a list in 16-bit numbers, and 0 where the form has no such part.
#[derive(Clone, Copy, Debug, Default, PartialEq, Eq, Hash)]
#[repr(C)]
pub struct Told {
    pub form: u32,
    pub last: u32,
    pub number: u32,
    pub first: usize,
    pub second: usize,
    pub third: usize,
}

impl Told {
    /// The form, if its number names one.
    pub fn form(&self) -> Option<Form> {
        match self.form {
            0 => Some(Form::Plain),
            1 => Some(Form::List),
            2 => Some(Form::Zombit { size: self.number }),
            3 => Some(Form::Pioneer),
            _ => None,
        }
    }

    /// How many bytes the parts of the form take together, up to the largest `usize`.
    pub fn bytes(&self) -> usize {
        match self.form {
            0 => self.first,
            2 => self
                .first
                .saturating_add(self.second)
                .saturating_add(self.third),
            3 => self.first.saturating_add(self.second),
            _ => 0,
        }
    }

    /// The same, with 0 for what the form does not look at.
    pub fn looked_at(&self) -> Told {
        let (number, second, third) = match self.form {
            2 => (self.number, self.second, self.third),
            3 => (self.number, self.second, 0),
            _ => (0, 0, 0),
        };
        Told {
            number,
            second,
            third,
            ..*self
        }
    }

    /// How many 16-bit numbers the parts take together.
    pub fn numbers(&self) -> usize {
        match self.form {
            1 => self.first,
            _ => 0,
        }
    }
}
