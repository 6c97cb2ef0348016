//! The words of a line: what is wanted at a place, and which words are that (docs/CONSOLE.md, "Lines and words", rule 6).

use crate::lines::is_blank;
use crate::sets::Sort;

#[derive(Clone, Copy, Debug, PartialEq, Eq)]
pub enum Slot {
    Free,
    Class,
}

#[derive(Clone, Copy, Debug, PartialEq, Eq)]
pub enum Form {
    Plain,
    List,
    Zombit,
    Pioneer,
}

/// What was wanted at the first place where it did not stand.
pub type Expected = &'static str;

/// The words of a line that have not been read yet.
pub struct Words<'a> {
    rest: &'a str,
}

impl<'a> Words<'a> {
    pub fn of(line: &'a str) -> Words<'a> {
        Words { rest: line }
    }

    /// The next word, or none at the end of the line.
    fn word(&mut self) -> Option<&'a str> {
        let bytes = self.rest.as_bytes();
        let mut start = 0;
        while start < bytes.len() && is_blank(bytes[start]) {
            start += 1;
        }
        let mut end = start;
        while end < bytes.len() && !is_blank(bytes[end]) {
            end += 1;
        }
        let word = &self.rest[start..end];
        self.rest = &self.rest[end..];
        if word.is_empty() {
            None
        } else {
            Some(word)
        }
    }

    /// The first word of the line, whichever it is.
    pub fn command(&mut self) -> &'a str {
        self.word().unwrap_or("")
    }

    /// The word at the place of a question, whichever it is.
    pub fn question(&mut self) -> &'a str {
        self.word().unwrap_or("")
    }

    pub fn slot(&mut self) -> Result<Slot, Expected> {
        match self.word() {
            Some("free") => Ok(Slot::Free),
            Some("class") => Ok(Slot::Class),
            _ => Err("a slot: free or class"),
        }
    }

    pub fn form(&mut self) -> Result<Form, Expected> {
        match self.word() {
            Some("plain") => Ok(Form::Plain),
            Some("list") => Ok(Form::List),
            Some("zombit") => Ok(Form::Zombit),
            Some("pioneer") => Ok(Form::Pioneer),
            _ => Err("a form: plain, list, zombit or pioneer"),
        }
    }

    pub fn sort(&mut self) -> Result<Sort, Expected> {
        match self.word() {
            Some("member") => Ok(Sort::Members),
            Some("other") => Ok(Sort::Others),
            _ => Err("a sort: member or other"),
        }
    }

    pub fn number(&mut self) -> Result<u64, Expected> {
        self.word()
            .and_then(|word| number_up_to(word, 4_294_967_295))
            .ok_or("a number from 0 to 4294967295")
    }

    pub fn number_of_a_sheet(&mut self) -> Result<u64, Expected> {
        self.word()
            .and_then(|word| number_up_to(word, 65_536))
            .ok_or("a number from 0 to 65536")
    }

    pub fn part_in_hex(&mut self) -> Result<Vec<u8>, Expected> {
        self.word()
            .and_then(bytes_in_hex)
            .ok_or("a part in hex, two digits a byte, or -")
    }

    pub fn part_in_numbers(&mut self) -> Result<Vec<u64>, Expected> {
        self.word()
            .and_then(numbers_with_commas)
            .ok_or("a part of numbers from 0 to 65535 with commas, or -")
    }

    pub fn end(&mut self) -> Result<(), Expected> {
        match self.word() {
            None => Ok(()),
            Some(_) => Err("the end of the line"),
        }
    }
}

/// One decimal digit or more, worth at most so much.
fn number_up_to(word: &str, most: u64) -> Option<u64> {
    if word.is_empty() {
        return None;
    }
    let mut worth = 0;
    for byte in word.bytes() {
        if !byte.is_ascii_digit() {
            return None;
        }
        worth = worth * 10 + u64::from(byte - b'0');
        if worth > most {
            return None;
        }
    }
    Some(worth)
}

/// Two hex digits for each byte, the higher one first, for one byte or more; or `-`.
fn bytes_in_hex(word: &str) -> Option<Vec<u8>> {
    if word == "-" {
        return Some(Vec::new());
    }
    let mut bytes = Vec::new();
    for digits in word.as_bytes().chunks(2) {
        if digits.len() != 2 {
            return None;
        }
        bytes.push(hex_digit(digits[0])? * 16 + hex_digit(digits[1])?);
    }
    Some(bytes)
}

fn hex_digit(byte: u8) -> Option<u8> {
    match byte {
        b'0'..=b'9' => Some(byte - b'0'),
        b'a'..=b'f' => Some(byte - b'a' + 10),
        b'A'..=b'F' => Some(byte - b'A' + 10),
        _ => None,
    }
}

/// Numbers with one comma between each two of them, for one number or more; or `-`.
fn numbers_with_commas(word: &str) -> Option<Vec<u64>> {
    if word == "-" {
        return Some(Vec::new());
    }
    let mut numbers = Vec::new();
    for digits in word.split(',') {
        numbers.push(number_up_to(digits, 65_535)?);
    }
    Some(numbers)
}
