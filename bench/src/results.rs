// What was measured, and by what it is found.
use crate::foreign::Library;
use crate::form::{Form, Question, Sort};
use std::collections::BTreeMap;
use std::fmt;

/// A piece of work.
#[derive(Clone, Copy, PartialEq, Eq, PartialOrd, Ord, Debug)]
pub enum Work {
    Ask(Question, Sort),
    Open,
    /// A fill of an index of the form.
    FillFrom(Form),
    Sheet,
    Nearest,
    Count,
}

/// Who does it, and for ours and plain Rust in what form.
#[derive(Clone, Copy, PartialEq, Eq, PartialOrd, Ord, Debug)]
pub enum By {
    Ours(Form),
    PlainRust(Form),
    Library(Library),
}

impl fmt::Display for By {
    fn fmt(&self, f: &mut fmt::Formatter) -> fmt::Result {
        match self {
            By::Ours(form) => write!(f, "{form}"),
            By::PlainRust(form) => write!(f, "{form}, plain Rust"),
            By::Library(library) => write!(f, "{library}"),
        }
    }
}

/// Times in nanoseconds.
#[derive(Default)]
pub struct Results {
    times: BTreeMap<(Work, &'static str, By), f64>,
}

impl Results {
    pub fn put(&mut self, work: Work, kind: &'static str, by: By, time: f64) {
        self.times.insert((work, kind, by), time);
    }

    pub fn time(&self, work: Work, kind: &'static str, by: By) -> Option<f64> {
        self.times.get(&(work, kind, by)).copied()
    }

    /// The smallest of some times.
    pub fn fastest(&self, work: Work, kind: &'static str, by: &[Library]) -> Option<f64> {
        by.iter().filter_map(|library| self.time(work, kind, By::Library(*library))).min_by(f64::total_cmp)
    }

    /// Our time by that of plain Rust.
    pub fn to_plain_rust(&self, work: Work, kind: &'static str, form: Form) -> Option<f64> {
        Some(self.time(work, kind, By::Ours(form))? / self.time(work, kind, By::PlainRust(form))?)
    }

    /// Our time by that of the fastest of some libraries.
    pub fn to_libraries(&self, work: Work, kind: &'static str, form: Form, libraries: &[Library]) -> Option<f64> {
        Some(self.time(work, kind, By::Ours(form))? / self.fastest(work, kind, libraries)?)
    }
}
