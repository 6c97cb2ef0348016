//! The lines of an input, and what is settled of a line before its words are read (docs/CONSOLE.md, "Lines and words", rules 1 to 5).

/// The bytes of the longest line that can be read.
const LONGEST: usize = 800_000;

/// What a line is by the first five rules.
#[derive(Debug, PartialEq, Eq)]
pub enum Line<'a> {
    /// It has no answer.
    PassedOver,
    /// It cannot be read: what was expected.
    Unreadable(&'static str),
    /// Its words are to be read.
    Text(&'a str),
}

/// A space, a tab, a form feed or a carriage return.
pub fn is_blank(byte: u8) -> bool {
    matches!(byte, 32 | 9 | 12 | 13)
}

/// The lines of an input, each with whether the input cut it off.
pub fn split(input: &[u8]) -> impl Iterator<Item = (&[u8], bool)> {
    input
        .split_inclusive(|&byte| byte == 10)
        .map(|line| match line.strip_suffix(&[10]) {
            Some(bytes) => (bytes, false),
            None => (line, true),
        })
}

/// The first of the rules 1 to 5 that fits the line, or its text for rule 6.
pub fn read(bytes: &[u8], cut_off: bool) -> Line<'_> {
    if bytes.first() == Some(&b'#') {
        return Line::PassedOver;
    }
    if bytes.len() > LONGEST {
        return Line::Unreadable("a line of at most 800000 bytes");
    }
    if bytes.iter().all(|&byte| is_blank(byte)) {
        return Line::PassedOver;
    }
    if cut_off {
        return Line::Unreadable("a newline at the end of the line");
    }
    match std::str::from_utf8(bytes) {
        Err(_) => Line::Unreadable("a line of text"),
        Ok(text) => Line::Text(text),
    }
}
