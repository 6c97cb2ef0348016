//! Puts words into a line: mostly with one space between, now and then with blanks of all kinds in all places.

use crate::chance::Chance;
use crate::command::Command;

const BLANKS: [u8; 4] = [b' ', b'\t', 0x0c, b'\r'];

/// A row of blanks, mostly short.
pub fn blanks(chance: &mut Chance, least: u64) -> Vec<u8> {
    let most = if chance.one_in(40) { 200 } else { 4 };
    let length = chance.between(least, most);
    let kind = chance.below(6);
    (0..length).map(|_| if kind < 4 { BLANKS[kind as usize] } else { chance.choose(&BLANKS) }).collect()
}

/// The line of a command, with odd blanks in one line of the given number.
pub fn line(chance: &mut Chance, command: &Command, odd_one_in: u64) -> Vec<u8> {
    if !chance.one_in(odd_one_in) {
        let words: Vec<&[u8]> = command.words.iter().map(|word| &word.text[..]).collect();
        return words.join(&b' ');
    }
    let (before, between, after) = chance.choose(&[
        (true, false, false),
        (false, true, false),
        (false, true, false),
        (false, false, true),
        (false, false, true),
        (true, true, true),
    ]);
    let mut line = if before { blanks(chance, 1) } else { Vec::new() };
    for (place, word) in command.words.iter().enumerate() {
        if place > 0 {
            line.extend(if between { blanks(chance, 1) } else { b" ".to_vec() });
        }
        line.extend(&word.text);
    }
    if after {
        if chance.one_in(2) {
            line.push(b'\r');
        } else {
            line.extend(blanks(chance, 1));
        }
    }
    line
}
