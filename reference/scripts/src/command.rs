//! A command as a row of words, each with what is wanted at its place, so that it can be spoilt on purpose.

use crate::chance::Chance;
use crate::index::{Form, Index, Part};

#[derive(Clone, Copy, PartialEq, Eq, Debug)]
pub enum Wanted {
    Command,
    Slot,
    Form,
    Question,
    Sort,
    Number,
    SheetNumber,
    Hex,
    List,
}

#[derive(Clone)]
pub struct Word {
    pub wanted: Wanted,
    pub text: Vec<u8>,
}

#[derive(Clone)]
pub struct Command {
    pub words: Vec<Word>,
}

pub const SLOTS: [&str; 2] = ["free", "class"];

impl Command {
    /// A command with the given first word.
    pub fn new(name: &str) -> Command {
        Command { words: Vec::new() }.with(Wanted::Command, name)
    }

    pub fn with(mut self, wanted: Wanted, text: &str) -> Command {
        self.words.push(Word { wanted, text: text.as_bytes().to_vec() });
        self
    }

    pub fn slot(self, slot: usize) -> Command {
        self.with(Wanted::Slot, SLOTS[slot])
    }

    pub fn form(self, form: Form) -> Command {
        self.with(Wanted::Form, form.name())
    }

    pub fn number(self, chance: &mut Chance, value: u64) -> Command {
        let text = number_text(chance, value);
        self.with(Wanted::Number, &text)
    }

    pub fn sheet_number(self, chance: &mut Chance, value: u64) -> Command {
        let text = number_text(chance, value);
        self.with(Wanted::SheetNumber, &text)
    }

    /// The numbers and the parts of an index.
    pub fn index(mut self, chance: &mut Chance, index: &Index) -> Command {
        self = self.number(chance, index.last);
        if index.form.has_second() {
            self = self.number(chance, index.second);
        }
        for part in &index.parts {
            self = match part {
                Part::Bytes(bytes) => {
                    let text = hex_text(chance, bytes);
                    self.with(Wanted::Hex, &text)
                }
                Part::Numbers(numbers) => {
                    let text = list_text(chance, numbers);
                    self.with(Wanted::List, &text)
                }
            };
        }
        self
    }
}

/// A number in decimal, now and then with zeros in front.
pub fn number_text(chance: &mut Chance, value: u64) -> String {
    if chance.one_in(40) {
        let zeros = if chance.one_in(5) { chance.between(8, 60) } else { chance.between(1, 3) };
        return format!("{}{}", "0".repeat(zeros as usize), value);
    }
    value.to_string()
}

/// A part in hex, now and then with some or all digits of the upper case.
fn hex_text(chance: &mut Chance, bytes: &[u8]) -> String {
    if bytes.is_empty() {
        return "-".to_string();
    }
    let style = chance.below(20);
    let mut text = String::with_capacity(bytes.len() * 2);
    for byte in bytes {
        for digit in [byte >> 4, byte & 15] {
            let letter = char::from_digit(digit as u32, 16).expect("a digit is below 16");
            let upper = style == 0 || (style == 1 && chance.one_in(2));
            text.push(if upper { letter.to_ascii_uppercase() } else { letter });
        }
    }
    text
}

fn list_text(chance: &mut Chance, numbers: &[u64]) -> String {
    if numbers.is_empty() {
        return "-".to_string();
    }
    let padded = chance.one_in(20);
    let texts: Vec<String> = numbers
        .iter()
        .map(|number| if padded { number_text(chance, *number) } else { number.to_string() })
        .collect();
    texts.join(",")
}
