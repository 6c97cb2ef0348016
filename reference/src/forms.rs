//! The four forms together: what an index is opened from, and what is opened (docs/FILLS.md, docs/OPENING.md).

use crate::refusals::Fault;
use crate::sets::{last, Set};
use crate::{list, pioneer, plain, zombit};

/// A form, with its block size if it has one.
#[derive(Clone, Copy, Debug, PartialEq, Eq)]
pub enum Choice {
    Plain,
    List,
    Zombit { size: u64 },
    Pioneer,
}

/// What an index is opened from: the numbers and the parts of a form.
#[derive(Clone, Debug, PartialEq, Eq)]
pub enum Source {
    Plain {
        last: u64,
        bits: Vec<u8>,
    },
    List {
        last: u64,
        numbers: Vec<u64>,
    },
    Zombit {
        last: u64,
        size: u64,
        parts: zombit::Parts,
    },
    Pioneer {
        last: u64,
        count: u64,
        starts: Vec<u8>,
        sums: Vec<u8>,
    },
}

/// An open index: its form, and the set that it stands for.
#[derive(Clone, Debug, PartialEq, Eq)]
pub struct Index {
    pub choice: Choice,
    pub set: Set,
}

/// The built-in plain index, of one bay and no member.
pub fn built_in() -> Index {
    Index {
        choice: Choice::Plain,
        set: vec![false],
    }
}

/// Opens the index of a source.
pub fn open(source: &Source) -> Result<Index, Fault> {
    match source {
        Source::Plain { last, bits } => Ok(Index {
            choice: Choice::Plain,
            set: plain::open(*last, bits)?,
        }),
        Source::List { last, numbers } => Ok(Index {
            choice: Choice::List,
            set: list::open(*last, numbers)?,
        }),
        Source::Zombit { last, size, parts } => Ok(Index {
            choice: Choice::Zombit { size: *size },
            set: zombit::open(*last, *size, parts)?,
        }),
        Source::Pioneer {
            last,
            count,
            starts,
            sums,
        } => Ok(Index {
            choice: Choice::Pioneer,
            set: pioneer::open(*last, *count, starts, sums)?,
        }),
    }
}

/// Fills a set into a form.
pub fn fill(set: &[bool], choice: Choice) -> Result<Source, Fault> {
    let last = last(set);
    match choice {
        Choice::Plain => Ok(Source::Plain {
            last,
            bits: plain::fill(set),
        }),
        Choice::List => Ok(Source::List {
            last,
            numbers: list::fill(set),
        }),
        Choice::Zombit { size } => Ok(Source::Zombit {
            last,
            size,
            parts: zombit::fill(set, size)?,
        }),
        Choice::Pioneer => {
            let (count, starts, sums) = pioneer::fill(set);
            Ok(Source::Pioneer {
                last,
                count,
                starts,
                sums,
            })
        }
    }
}
