//! Lines that cannot be read, each of them a lawful command spoilt in one way or two.

use crate::chance::Chance;
use crate::command::{Command, Wanted, Word};
use crate::spacing;

/// Words that are wrong at a place: near misses, words of other places, and letters that only look alike.
const COMMANDS: [&str; 40] = [
    "opens", "ope", "Open", "OPEN", "quit", "exit", "help", "?", "list", "plain", "zombit", "last", "holds", "member", "other", "previous", "rank",
    "select", "0", "1", "-", "free,", "class:", "frei", "Free", "CLASS", "nextt", "nex", "rounds", "Round", "sheets", "closed", "f", "\u{feff}free",
    "\u{feff}round", "fill;", "//", "rоund", "ﬁll", "0x00",
];
const SLOTS: [&str; 16] =
    ["Free", "FREE", "CLASS", "Class", "both", "slot", "0", "1", "fre", "frees", "classes", "member", "plain", "-", "F", "сlass"];
const FORMS: [&str; 16] =
    ["Plain", "LIST", "plane", "lists", "Zombit", "zombits", "zombi", "pionier", "pioneer,", "free", "2", "16", "-", "bits", "P", "lıst"];
const QUESTIONS: [&str; 18] = [
    "Last", "LAST", "first", "hold", "holds?", "prev", "nex", "nexts", "count", "member", "other", "selects", "is", "5", "-", "open", "sheet", "ranks",
];
const SORTS: [&str; 14] = ["Member", "MEMBER", "members", "others", "Other", "OTHER", "non-member", "free", "class", "0", "3", "-", "any", "mem"];
const NUMBERS: [&str; 76] = [
    "-1", "-0", "+1", "+0", "+", "-", "--", "--1", "1-", "1+", "1.0", "1.", ".5", "1e3", "1E0", "0x10", "0X1f", "0b1", "0o7", "1h", "ten", "a", "one",
    "1,2", "1,", ",1", "1_000", "1'000", "'1'", "\"1\"", "1;", "(1)", "1/1", "1:2", "nan", "NaN", "inf", "1u32", "1l", "member", "plain", "free", "#",
    "#1", "４", "１２", "٣", "1٣", "٣1", "²", "1²", "Ⅳ", "½", "∞", "୧", "𝟙", "\u{a0}", "1\u{a0}", "\u{a0}1", "1\u{b}", "\u{b}1", "1\u{0}", "\u{0}1",
    "1\u{7f}", "1\u{85}", "1\u{200b}", "1\u{2028}", "\u{feff}1", "1\u{301}", "４２９", "1\u{1}", "\u{1b}1", "\u{3000}1", "−1", "1–2", "･1",
];
/// Numbers that are too large; some are small again when read into 32, 64 or 128 bits.
const TOO_LARGE: [&str; 16] = [
    "4294967296",
    "4294967297",
    "4294967312",
    "0000000004294967296",
    "5000000000",
    "9999999999",
    "42949672960",
    "9223372036854775807",
    "9223372036854775808",
    "18446744073709551615",
    "18446744073709551616",
    "18446744073709551617",
    "18446744073709551618",
    "79228162514264337593543950337",
    "340282366920938463463374607431768211456",
    "340282366920938463463374607431768211457",
];
const SHEETS: [&str; 8] = ["65537", "065537", "65538", "131072", "4294967295", "100000", "65536.0", "0065537"];
const HEXES: [&str; 50] = [
    "8", "870", "87070", "8g", "g7", "zz", "0x87", "87h", "#87", "87,07", ",", "87-", "-87", "--", "-0", "0-", "+8", "+f", "-f", "f+", "+87", "8_", "8.",
    "é", "0é", "é0", "é0b", "1é2", "0é1a", "€0", "0€", "€", "𝟙", "٣3", "3٣", "٣", "８７", "ａ", "\u{a0}87", "87\u{a0}", "87\u{b}", "8\u{0}", "\u{0}\u{0}",
    "0G", "0`", "0@", "0:", "/0", "fg", "ßa",
];
const LISTS: [&str; 42] = [
    ",", ",,", "1,", ",1", "1,,2", "1,2,", ",1,2", "1,2,,", "65536", "1,65536", "065536", "65536,1", "99999", "1,131073", "-1", "1,-2", "1,-", "-,1", "-,-", "--",
    "+1", "1,+2", "1;2", "1.2", "1.", "a", "1,a", "ff", "1,0x2", "0x1", "4294967297", "1,4294967298", "18446744073709551617", "1,18446744073709551618", "٣",
    "1,٣", "１,２", "1،2", "1\u{a0},2", "1,2-3", "1,\u{0}", "[1,2]",
];
const BEHIND: [&str; 18] =
    ["1", "0", "-", "00", "free", "class", "last", "#", "#comment", "//", "ok", "x", ".", ";", "\u{a0}", "\u{b}", "\u{0}", "\u{feff}"];
const INSIDE: [&str; 34] = [
    "\u{0}", "\u{1}", "\u{7}", "\u{8}", "\u{b}", "\u{e}", "\u{1a}", "\u{1b}", "\u{1c}", "\u{1f}", "\u{7f}", "\u{80}", "\u{85}", "\u{a0}", "\u{ad}", "é", "à",
    "Å", "\u{301}", "٣", "３", "\u{1680}", "\u{180e}", "\u{2003}", "\u{200b}", "\u{2028}", "\u{2029}", "\u{202f}", "\u{3000}", "\u{feff}", "\u{ffff}", "\u{d7ff}",
    "𝟙", "\u{10ffff}",
];
/// Bytes that are not UTF-8, wherever they stand whole: strays, cut, overlong, surrogates, beyond the last character.
const NOT_TEXT: [&[u8]; 20] = [
    b"\xff", b"\xfe", b"\x80", b"\xa0", b"\xbf", b"\xc3", b"\xc3\xc3", b"\xe2\x82", b"\xf0\x9f\x98", b"\xc0\x80", b"\xc1\xbf", b"\xc0\xa0", b"\xe0\x80\x80",
    b"\xe0\x9f\xbf", b"\xed\xa0\x80", b"\xed\xbf\xbf", b"\xf4\x90\x80\x80", b"\xf0\x8f\xbf\xbf", b"\xf8\x88\x80\x80\x80", b"\xf5\x80\x80\x80",
];

fn bad_word(chance: &mut Chance, wanted: Wanted) -> Vec<u8> {
    let number = |chance: &mut Chance| -> Vec<u8> {
        match chance.below(3) {
            0 => chance.choose(&TOO_LARGE).as_bytes().to_vec(),
            1 if chance.one_in(4) => {
                let digits = chance.between(11, 300);
                (0..digits).map(|place| if place == 0 { b'9' } else { b'0' + chance.below(10) as u8 }).collect()
            }
            _ => chance.choose(&NUMBERS).as_bytes().to_vec(),
        }
    };
    let text = match wanted {
        Wanted::Command => chance.choose(&COMMANDS),
        Wanted::Slot => chance.choose(&SLOTS),
        Wanted::Form => chance.choose(&FORMS),
        Wanted::Question => chance.choose(&QUESTIONS),
        Wanted::Sort => chance.choose(&SORTS),
        Wanted::Number => return number(chance),
        Wanted::SheetNumber if chance.one_in(2) => return number(chance),
        Wanted::SheetNumber => chance.choose(&SHEETS),
        Wanted::Hex => chance.choose(&HEXES),
        Wanted::List => chance.choose(&LISTS),
    };
    text.as_bytes().to_vec()
}

/// The word spoilt a little: one digit of a part lost, doubled or made something else.
fn bruised(chance: &mut Chance, word: &Word) -> Vec<u8> {
    let mut text = word.text.clone();
    let place = chance.below(text.len() as u64) as usize;
    match word.wanted {
        Wanted::Hex if text != b"-" => match chance.below(3) {
            0 if text.len() > 2 => drop(text.remove(place)),
            1 => text.insert(place, b'0'),
            _ => text[place] = chance.choose(b"gGzZ-+,.xX @`:/"),
        },
        Wanted::List if text != b"-" => {
            let spoiler = chance.choose(b",,,-+.;a");
            let place = chance.choose(&[0, place, text.len()]);
            text.insert(place, spoiler);
            if spoiler == b',' && place > 0 && place < text.len() - 1 && text[place - 1] != b',' && text[place + 1] != b',' {
                text.insert(place, spoiler);
            }
        }
        _ => return bad_word(chance, word.wanted),
    }
    text
}

fn insert(text: &mut Vec<u8>, place: usize, bytes: &[u8]) {
    text.splice(place..place, bytes.iter().copied());
}

/// A line made from the lawful command, and its kind. Where a line turns out readable all the same, it is harmless.
pub fn spoilt(chance: &mut Chance, command: &Command) -> (String, Vec<u8>) {
    let mut command = command.clone();
    let length = command.words.len();
    let any = chance.below(length as u64) as usize;
    let kind = match chance.below(100) {
        0..=34 => {
            // The first word is one of many, so the later ones are chosen more often.
            let place = if any == 0 && chance.percent(70) { length - 1 } else { any };
            let word = &command.words[place];
            let wanted = word.wanted;
            command.words[place].text = if chance.one_in(3) { bruised(chance, word) } else { bad_word(chance, wanted) };
            format!("a bad {wanted:?}")
        }
        35..=38 => {
            for _ in 0..2 {
                let place = chance.below(length as u64) as usize;
                let wanted = command.words[place].wanted;
                command.words[place].text = bad_word(chance, wanted);
            }
            "two bad words".to_string()
        }
        39..=49 => {
            let kept = chance.between(1, length as u64 - 1) as usize;
            command.words.truncate(kept.max(1));
            if length == 1 {
                command.words.push(Word { wanted: Wanted::Number, text: b"1".to_vec() });
                "a word too many".to_string()
            } else {
                "cut before a word".to_string()
            }
        }
        50..=53 => {
            command.words.remove(any);
            "a word left out".to_string()
        }
        54..=63 => {
            let text = chance.choose(&BEHIND).as_bytes().to_vec();
            command.words.push(Word { wanted: Wanted::Number, text });
            "a word too many".to_string()
        }
        64..=66 => {
            let copy = command.words[any].clone();
            command.words.insert(any, copy);
            "a word twice".to_string()
        }
        67..=68 => {
            let other = (any + 1) % length;
            if command.words[any].wanted != command.words[other].wanted {
                command.words.swap(any, other);
            } else {
                command.words[any].text = b"x".to_vec();
            }
            "words exchanged".to_string()
        }
        69..=72 => {
            // Names of the tables count in lower case alone, as hex digits do not.
            let all = chance.one_in(3);
            let names = |word: &Word| !matches!(word.wanted, Wanted::Number | Wanted::SheetNumber | Wanted::Hex | Wanted::List);
            let last = command.words.iter().rposition(names).unwrap_or(0);
            for (place, word) in command.words.iter_mut().enumerate() {
                if names(word) && (all || place == last) {
                    word.text.make_ascii_uppercase();
                }
            }
            "the upper case".to_string()
        }
        73..=81 => {
            let bytes = chance.choose(&INSIDE).as_bytes().to_vec();
            let text = &mut command.words[any].text;
            let place = chance.choose(&[0, text.len() / 2, text.len()]);
            insert(text, place, &bytes);
            "a strange character in a word".to_string()
        }
        82..=84 => {
            let bytes = chance.choose(&["", "\u{a0}", "\u{b}", "\u{0}", ",", "_", "\u{2003}", "\u{85}", ":", "\u{3000}"]);
            if any + 1 < length {
                let next = command.words.remove(any + 1);
                let word = &mut command.words[any];
                word.text.extend(bytes.as_bytes());
                word.text.extend(next.text);
            } else {
                command.words[any].text.extend(b"_");
            }
            "words joined".to_string()
        }
        85..=91 => {
            let mut line = spacing::line(chance, &command, 6);
            let bytes = chance.choose(&NOT_TEXT);
            let place = chance.below(line.len() as u64 + 1) as usize;
            insert(&mut line, place, bytes);
            if chance.one_in(8) {
                let place = chance.below(line.len() as u64 + 1) as usize;
                insert(&mut line, place, chance.choose(&NOT_TEXT));
            }
            return named("not UTF-8", line);
        }
        92 => {
            let length = chance.between(1, 20);
            let line = (0..length).map(|_| chance.draw() as u8).filter(|byte| *byte != b'\n').collect();
            return named("any bytes", line);
        }
        93 => {
            let length = chance.between(1, 20);
            let line = (0..length).map(|_| chance.between(32, 126) as u8).collect();
            return named("any ASCII", line);
        }
        94 | 95 => {
            let mut line = spacing::blanks(chance, 1);
            line.extend(chance.choose::<&[u8]>(&[b"#", b"# free last", b"#\xff", b"##"]));
            return named("a comment behind blanks", line);
        }
        96 | 97 => {
            let mut line = if chance.one_in(2) { spacing::blanks(chance, 0) } else { Vec::new() };
            line.extend(chance.choose(&["\u{b}", "\u{a0}", "\u{85}", "\u{2028}", "\u{3000}", "\u{feff}", "\u{0}", "\u{1c}", "\u{200b}"]).as_bytes());
            if chance.one_in(2) {
                line.extend(spacing::blanks(chance, 0));
            }
            return named("what looks blank", line);
        }
        98 => {
            let mut line = spacing::blanks(chance, 1);
            line.extend(chance.choose(&NOT_TEXT));
            line.extend(spacing::blanks(chance, 0));
            return named("blanks and not UTF-8", line);
        }
        _ => {
            let line = chance.choose(&[
                "fill free plain 2", "fill free zombit", "fill class list 16", "fill class pioneer 7", "fill free zombit 2 2", "pair plain 16 8707 16",
                "pair list 16 1 16", "pair zombit 16 2 d5 3b 19 16 2 d5 3b", "open free plain 16 8707 00", "open free list 16", "free last 1",
                "free holds member 3", "free next 3", "free member 3", "sheet 65537", "sheet 65536 1", "round 1", "next free", "close round", "count 1",
                "count 1 2 3", "pick -1", "level free 3", "turn", "turn free 1", "go", "open", "class", "free", "pair plain", "level free 1 2 3", "sign s",
            ]);
            return named("by hand", line.as_bytes().to_vec());
        }
    };
    let line = spacing::line(chance, &command, 6);
    named(&kind, line)
}

fn named(kind: &str, line: Vec<u8>) -> (String, Vec<u8>) {
    (format!("unreadable: {kind}"), line)
}
