// An opened index of any form.
use super::list::{self, List};
use super::pioneer::{self, Pioneer};
use super::plain::{self, Plain};
use super::set::Set;
use super::zombit::{self, Zombit};
use crate::told::{Fault, Stored};

pub enum Index<'a> {
    Plain(Plain<'a>),
    List(List<'a>),
    Zombit(Zombit<'a>),
    Pioneer(Pioneer<'a>),
}

/// Does something with the index of whichever form.
macro_rules! with_index {
    ($index:expr, $set:ident => $body:expr) => {
        match $index {
            $crate::plain_rust::index::Index::Plain($set) => $body,
            $crate::plain_rust::index::Index::List($set) => $body,
            $crate::plain_rust::index::Index::Zombit($set) => $body,
            $crate::plain_rust::index::Index::Pioneer($set) => $body,
        }
    };
}
pub(super) use with_index;

// The part of so many bytes behind others; where the memory ends before that, the part ends there.
fn part(bytes: &[u8], from: usize, len: usize) -> &[u8] {
    let rest = bytes.get(from..).unwrap_or_default();
    &rest[..len.min(rest.len())]
}

impl<'a> Index<'a> {
    /// Opens the index from the fronts of its memories.
    pub fn open(stored: Stored<'a>) -> Result<Self, Fault> {
        let Stored { told, bytes, numbers } = stored;
        let first = part(bytes, 0, told.first);
        let second = part(bytes, told.first, told.second);
        let third = part(bytes, told.first.saturating_add(told.second), told.third);
        match told.form {
            0 => plain::open(told.last, first).map(Index::Plain),
            1 => list::open(told.last, &numbers[..told.first.min(numbers.len())]).map(Index::List),
            2 => zombit::open(told.last, told.number, [first, second, third]).map(Index::Zombit),
            _ => pioneer::open(told.last, told.number, first, second).map(Index::Pioneer),
        }
    }

    pub fn last(&self) -> u32 {
        with_index!(self, set => set.last())
    }
}

/// Whether the index can be opened, or why not.
pub fn open(stored: Stored) -> Fault {
    Index::open(stored).err().unwrap_or_default()
}
