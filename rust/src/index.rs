//! An opened index, in memory of its own.
use crate::calls::{self, Record};
use crate::{Fault, Form, Question, Sort, Told};

/// A lawful index: what is told of it, and its parts, one behind the other.
#[derive(Clone, Debug, PartialEq, Eq, Hash)]
pub struct Index {
    told: Told,
    bytes: Vec<u8>,
    numbers: Vec<u16>,
}

impl Index {
    /// The index of these parts, one behind the other, in bytes or, for a list, in 16-bit numbers; or why it is not lawful. What lies
    /// behind the parts is cut off, and what the form does not look at is 0 in what is told of it.
    pub fn open(told: Told, bytes: Vec<u8>, numbers: Vec<u16>) -> Result<Index, Fault> {
        let told = told.looked_at();
        let mut index = Index {
            told,
            bytes,
            numbers,
        };
        calls::open(index.record())?;
        index.bytes.truncate(told.bytes());
        index.numbers.truncate(told.numbers());
        Ok(index)
    }

    /// The list index of these members, which must rise strictly within 1 to the last bay.
    pub fn of_members(last: u32, members: &[u16]) -> Result<Index, Fault> {
        let told = Told {
            form: Form::List.number(),
            last,
            first: members.len(),
            ..Told::default()
        };
        Index::open(told, Vec::new(), members.to_vec())
    }

    /// The plain index of these bits, of which bay i has bit (i − 1) mod 8 of byte ⌊(i − 1) / 8⌋.
    pub fn of_bits(last: u32, bits: &[u8]) -> Result<Index, Fault> {
        let told = Told {
            form: Form::Plain.number(),
            last,
            first: bits.len(),
            ..Told::default()
        };
        Index::open(told, bits.to_vec(), Vec::new())
    }

    /// What is told of it.
    pub fn told(&self) -> Told {
        self.told
    }

    /// Its last bay.
    pub fn last(&self) -> u32 {
        self.told.last
    }

    /// Its parts, one behind the other; of a list none.
    pub fn bytes(&self) -> &[u8] {
        &self.bytes
    }

    /// Its list; of another form none.
    pub fn numbers(&self) -> &[u16] {
        &self.numbers
    }

    /// What the calls of the library take.
    pub fn record(&self) -> Record<'_> {
        Record {
            told: self.told,
            bytes: &self.bytes,
            numbers: &self.numbers,
        }
    }

    /// The answers to one question at each place.
    pub fn ask(&self, question: Question, sort: Sort, places: &[u32]) -> Vec<u32> {
        let mut answers = vec![0; places.len()];
        self.ask_into(question, sort, places, &mut answers);
        answers
    }

    /// The same, into the front of a memory, for as many as both have; behind that, it is kept.
    pub fn ask_into(&self, question: Question, sort: Sort, places: &[u32], answers: &mut [u32]) {
        calls::ask(self.record(), question as u32, sort as u32, places, answers)
            .expect("an index is lawful");
    }

    /// Its members.
    pub fn members(&self) -> Vec<u32> {
        let count = self.ask(Question::Rank, Sort::Members, &[self.last()])[0];
        self.ask(
            Question::Select,
            Sort::Members,
            &(1..=count).collect::<Vec<_>>(),
        )
    }

    /// What the set takes in a form. Only a block size is refused, by 4.
    pub fn measure(&self, form: Form) -> Result<Told, Fault> {
        let mut told = Told::default();
        calls::measure(self.record(), form.number(), form.size(), &mut told)?;
        Ok(told)
    }

    /// The set in a form, in memory of its own. Only a block size is refused, by 4.
    pub fn filled(&self, form: Form) -> Result<Index, Fault> {
        let room = self.measure(form)?;
        let mut bytes = vec![0; room.bytes()];
        let mut numbers = vec![0; room.numbers()];
        let told = self.fill_into(form, &mut bytes, &mut numbers)?;
        Ok(Index {
            told,
            bytes,
            numbers,
        })
    }

    /// Fills the set into the fronts of two memories, and tells with what it is opened there. A block size is refused by 4, and a memory
    /// that is too short by 5; then both memories are as they were.
    pub fn fill_into(
        &self,
        form: Form,
        bytes: &mut [u8],
        numbers: &mut [u16],
    ) -> Result<Told, Fault> {
        let mut told = Told::default();
        calls::fill(
            self.record(),
            form.number(),
            form.size(),
            &mut told,
            bytes,
            numbers,
        )?;
        Ok(told)
    }
}
