//! Lines about as long as a line may be, and longer.

use crate::chance::Chance;

const MOST: usize = 800_000;

/// A line of exactly the given length, made of what stands before, as many fillers as fit, and what stands behind.
fn filled(before: &[u8], filler: u8, behind: &[u8], length: usize) -> Vec<u8> {
    let mut line = before.to_vec();
    line.resize(length - behind.len(), filler);
    line.extend(behind);
    line
}

/// The longest command that says something useful: a pair of lists of all bays.
fn longest_pair() -> Vec<u8> {
    let texts: Vec<String> = (1..=65_535).map(|bay| bay.to_string()).collect();
    let list = texts.join(",");
    format!("pair list 65535 {list} 65535 {list}").into_bytes()
}

pub fn giant(chance: &mut Chance) -> (String, Vec<u8>) {
    let length = chance.weigh(&[(35, MOST), (40, MOST + 1), (5, MOST - 1), (10, 1_000_000), (10, 1_048_576)]);
    let (kind, line) = match chance.below(16) {
        0 => ("blanks", filled(b"", chance.choose(b" \t\x0c\r"), b"", length)),
        1 => ("a word of letters", filled(b"", b'x', b"", length)),
        2 => ("a word of digits", filled(b"free holds ", b'9', b"", length)),
        3 => ("a comment", filled(b"#", chance.choose(b"c \xff"), b"", length)),
        4 => ("blanks before", filled(b"", b' ', b"free last", length)),
        5 => ("blanks between", filled(b"class ", b'\t', b"last", length)),
        6 => ("blanks behind", filled(b"round", b' ', b"", length)),
        7 => ("blanks and a return behind", filled(b"next", b' ', b"\r", length)),
        8 => ("zeros before a number", filled(b"free rank member ", b'0', b"7", length)),
        9 => ("zeros in a list", filled(b"open class list 16 2,", b'0', b"5,9,10,14", length)),
        10 => ("a wrong word behind", filled(b"free holds 1", b' ', b"x", length)),
        11 => ("not UTF-8 behind", filled(b"free holds 1", b' ', b"\xff", length)),
        12 => ("hex that is too long", filled(b"open free plain 16 ", b'a', b"", length)),
        13 => ("a list of commas", filled(b"open free list 16 ", b',', b"", length)),
        _ => return ("giant: the longest pair".to_string(), longest_pair()),
    };
    (format!("giant: {kind} {}", side(length)), line)
}

fn side(length: usize) -> &'static str {
    if length > MOST {
        "(too long)"
    } else {
        "(just fits)"
    }
}
