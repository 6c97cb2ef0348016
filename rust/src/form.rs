//! The forms of an index.

/// A form, with its block size if it has one.
#[derive(Clone, Copy, Debug, PartialEq, Eq, Hash)]
pub enum Form {
    /// A bit for each bay.
    Plain,
    /// The members as rising numbers.
    List,
    /// Blocks of `size` bays, from 2 to 4,096, of which only the mixed ones are written out.
    Zombit { size: u32 },
    /// Where runs of members begin, and the sums of their lengths.
    Pioneer,
}

impl Form {
    /// The number by which the library knows it.
    pub fn number(self) -> u32 {
        match self {
            Form::Plain => 0,
            Form::List => 1,
            Form::Zombit { .. } => 2,
            Form::Pioneer => 3,
        }
    }

    /// Its block size, or 0.
    pub fn size(self) -> u32 {
        match self {
            Form::Zombit { size } => size,
            _ => 0,
        }
    }
}
