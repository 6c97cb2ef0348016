//! How a script ends: with a newline, or in the middle of a line, as its seed decides.

use crate::chance::Chance;
use crate::giants;
use crate::passed;

/// The last line and its kind, cut off somewhere, if the seed has it so.
pub fn cut(seed: u64, kind: &str, line: &[u8]) -> Option<(String, Vec<u8>)> {
    let mut chance = Chance::new(seed ^ 0x656e_6469_6e67_2121);
    if !chance.one_in(3) {
        return None;
    }
    let (kind, mut text) = match chance.below(24) {
        0 | 1 => passed::comment(&mut chance),
        2 => ("blanks".to_string(), b" \t\x0c\r ".to_vec()),
        3 => ("not UTF-8".to_string(), b"free last \xff".to_vec()),
        4 => ("in the middle of a character".to_string(), b"free holds \xd9".to_vec()),
        5 => ("a whole command".to_string(), b"round".to_vec()),
        6 => ("not a command".to_string(), b"quit".to_vec()),
        7 => giants::giant(&mut chance),
        _ => (kind.to_string(), line.to_vec()),
    };
    // Half of them stand whole, and only the newline is missing.
    if text.is_empty() {
        text.push(b'n');
    } else if chance.one_in(2) {
        let kept = chance.between(1, text.len() as u64) as usize;
        text.truncate(kept);
    }
    Some((format!("cut off: {kind}"), text))
}
