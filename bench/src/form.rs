// The forms of an index, the questions and the sorts, as they are measured.
use std::fmt;

/// A form, with its block size if it has one.
#[derive(Clone, Copy, PartialEq, Eq, PartialOrd, Ord, Debug)]
pub enum Form {
    Plain,
    List,
    Zombit(u32),
    Pioneer,
}

/// The forms of which everything is measured.
pub const FORMS: [Form; 5] = [Form::Plain, Form::List, Form::Zombit(64), Form::Zombit(256), Form::Pioneer];

/// The forms of which only opening and fills are measured besides.
pub const OTHER_BLOCKS: [Form; 2] = [Form::Zombit(2), Form::Zombit(4096)];

impl Form {
    /// The number of the form in the C interface.
    pub fn number(self) -> u32 {
        match self {
            Form::Plain => 0,
            Form::List => 1,
            Form::Zombit(_) => 2,
            Form::Pioneer => 3,
        }
    }

    /// The block size; 0 where there is none.
    pub fn size(self) -> u32 {
        match self {
            Form::Zombit(size) => size,
            _ => 0,
        }
    }

    /// All forms.
    pub fn all() -> impl Iterator<Item = Form> {
        FORMS.into_iter().chain(OTHER_BLOCKS)
    }
}

impl fmt::Display for Form {
    fn fmt(&self, f: &mut fmt::Formatter) -> fmt::Result {
        match self {
            Form::Plain => f.write_str("plain"),
            Form::List => f.write_str("list"),
            Form::Zombit(size) => write!(f, "zombit {size}"),
            Form::Pioneer => f.write_str("pioneer"),
        }
    }
}

/// A sort of bays.
#[derive(Clone, Copy, PartialEq, Eq, PartialOrd, Ord, Debug)]
pub enum Sort {
    Members,
    Others,
}

/// A question about a set.
#[derive(Clone, Copy, PartialEq, Eq, PartialOrd, Ord, Debug)]
pub enum Question {
    Holds,
    Next,
    Previous,
    Rank,
    Select,
}

pub const QUESTIONS: [Question; 5] = [Question::Holds, Question::Next, Question::Previous, Question::Rank, Question::Select];

impl fmt::Display for Question {
    fn fmt(&self, f: &mut fmt::Formatter) -> fmt::Result {
        f.pad(match self {
            Question::Holds => "holds",
            Question::Next => "next",
            Question::Previous => "previous",
            Question::Rank => "rank",
            Question::Select => "select",
        })
    }
}
