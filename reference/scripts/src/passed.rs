//! Lines that are passed over: comments and blanks. Those that only look so are among the unreadable ones.

use crate::chance::Chance;
use crate::spacing;

pub fn comment(chance: &mut Chance) -> (String, Vec<u8>) {
    let (kind, text): (&str, Vec<u8>) = match chance.below(10) {
        0 => ("empty", b"#".to_vec()),
        1 => ("a command", b"#free last".to_vec()),
        2 => ("a command", b"# round".to_vec()),
        3 => ("odd blanks", b"#\tclose\r".to_vec()),
        4 => ("not UTF-8", b"#\xff\xfe".to_vec()),
        5 => ("not UTF-8", b"# \xc3 open \x80\xed\xa0\x80".to_vec()),
        6 => ("control bytes", b"#\x00\x01\x1b[0m\x7f".to_vec()),
        7 => ("not ASCII", "# é ٣ \u{a0} \u{10ffff}".as_bytes().to_vec()),
        8 => {
            // Any bytes but a newline.
            let length = chance.below(30);
            let any = (0..length).map(|_| chance.draw() as u8).filter(|byte| *byte != b'\n');
            ("any bytes", std::iter::once(b'#').chain(any).collect())
        }
        _ => ("two signs", b"## # #".to_vec()),
    };
    (format!("comment: {kind}"), text)
}

pub fn blank(chance: &mut Chance) -> (String, Vec<u8>) {
    let text = spacing::blanks(chance, 0);
    let kind = if text.is_empty() { "blank: empty" } else { "blank: blanks" };
    (kind.to_string(), text)
}
