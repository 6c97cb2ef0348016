//! An index as it stands in a command: a form, one number or two, and its parts.

#[derive(Clone, Copy, PartialEq, Eq, Debug)]
pub enum Form {
    Plain,
    List,
    Zombit,
    Pioneer,
}

pub const FORMS: [Form; 4] = [Form::Plain, Form::List, Form::Zombit, Form::Pioneer];

impl Form {
    pub fn name(self) -> &'static str {
        match self {
            Form::Plain => "plain",
            Form::List => "list",
            Form::Zombit => "zombit",
            Form::Pioneer => "pioneer",
        }
    }

    /// Whether a second number stands beside the last bay: the block size, or the number of members.
    pub fn has_second(self) -> bool {
        matches!(self, Form::Zombit | Form::Pioneer)
    }
}

#[derive(Clone)]
pub enum Part {
    Bytes(Vec<u8>),
    Numbers(Vec<u64>),
}

#[derive(Clone)]
pub struct Index {
    pub form: Form,
    pub last: u64,
    /// The block size of zombit, the number of members of pioneer, else 0.
    pub second: u64,
    pub parts: Vec<Part>,
}

impl Index {
    /// The bytes of a part, counted from 0. Only the list has none.
    pub fn bytes(&self, part: usize) -> &[u8] {
        match &self.parts[part] {
            Part::Bytes(bytes) => bytes,
            Part::Numbers(_) => &[],
        }
    }
}
