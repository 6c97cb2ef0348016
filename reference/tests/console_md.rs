//! The examples and rules of docs/CONSOLE.md.

mod common;
use common::{output_of, play};

const COMMANDS: &str = "error: expected a command: open, pair, fill, turn, level, free, class, round, next, sheet, go, count, nearest, sign, pick or close";
const SLOTS: &str = "error: expected a slot: free or class";
const FORMS: &str = "error: expected a form: plain, list, zombit or pioneer";
const QUESTIONS: &str = "error: expected a question: last, holds, next, previous, rank or select";
const SORTS: &str = "error: expected a sort: member or other";
const NUMBER: &str = "error: expected a number from 0 to 4294967295";
const SHEET: &str = "error: expected a number from 0 to 65536";
const HEX: &str = "error: expected a part in hex, two digits a byte, or -";
const NUMBERS: &str = "error: expected a part of numbers from 0 to 65535 with commas, or -";
const END: &str = "error: expected the end of the line";
const TOO_LONG: &str = "error: expected a line of at most 800000 bytes";
const CUT_OFF: &str = "error: expected a newline at the end of the line";
const NO_TEXT: &str = "error: expected a line of text";

#[test]
fn an_example() {
    play(&[
        ("open free plain 16 8707", "ok"),
        ("fill free zombit 2", "ok 16 2 d5 3b 19"),
        ("free rank member 8", "4"),
        ("free next member 12", "none"),
        ("open class list 16 2,5,9,10,14", "ok"),
        ("open class plain 10 0004", "refused 3 plain 1"),
        ("pair plain 16 8707 17 1223", "refused 2 plain 1 class"),
        ("next", "no round"),
        ("round", "ok"),
        ("next", "2 2"),
        ("sheet 3", "2 7 9 10 7"),
        ("sign 2", "refused 9"),
        ("close", "3 9 17"),
        ("level free 3 17", "refused 9"),
        ("level free 3 16", "ok"),
        ("free last", "14"),
        (
            "free holds -1",
            "error: expected a number from 0 to 4294967295",
        ),
        ("free holds 1 2", "error: expected the end of the line"),
    ]);
}

#[test]
fn an_empty_input() {
    let text = output_of(b"");
    assert_eq!(text.lines().count(), 7);
    assert!(text.starts_with("Commands are read from standard input, one a line, "));
    assert!(text.contains("\n  the forms: plain U BITS, list U MEMBERS, zombit "));
    assert!(text.ends_with("\nAn example: open free plain 16 8707\n"));
}

#[test]
fn the_slots_at_the_start() {
    play(&[
        ("free last", "1"),
        ("free holds 1", "no"),
        ("class last", "1"),
        ("class rank member 1", "0"),
        ("turn class", "ok"),
        ("fill class plain", "ok 1 01"),
        ("fill free plain", "ok 1 00"),
        ("fill free list", "ok 1 -"),
        ("fill free pioneer", "ok 1 0 00 -"),
        ("fill free zombit 2", "ok 1 2 01 00 -"),
    ]);
}

#[test]
fn comments_and_blanks_are_passed_over() {
    assert_eq!(output_of(b"\n"), "");
    assert_eq!(output_of(b"# a comment\n#\n#\xff\n\n \t\x0c\r\n\r\n"), "");
    assert_eq!(output_of(b"# cut off"), "");
    assert_eq!(output_of(b"  \r"), "");
    let mut comment = vec![b'#'; 900_000];
    assert_eq!(output_of(&comment), "");
    comment.push(b'\n');
    assert_eq!(output_of(&comment), "");
    assert_eq!(output_of(b" # no comment\n"), format!("{COMMANDS}\n"));
}

#[test]
fn a_line_of_blanks_is_too_long_before_it_is_passed_over() {
    let mut line = vec![b' '; 800_000];
    assert_eq!(output_of(&line), "");
    line.push(b'\n');
    assert_eq!(output_of(&line), "");
    let mut line = vec![b' '; 800_001];
    assert_eq!(output_of(&line), format!("{TOO_LONG}\n"));
    line.push(b'\n');
    assert_eq!(output_of(&line), format!("{TOO_LONG}\n"));
}

#[test]
fn the_longest_line() {
    let mut line = b"free last".to_vec();
    line.resize(800_000, b' ');
    line.push(b'\n');
    assert_eq!(output_of(&line), "1\n");
    line.insert(0, b' ');
    assert_eq!(output_of(&line), format!("{TOO_LONG}\n"));
    // Longer counts before cut off, and cut off before no text.
    line.pop();
    assert_eq!(output_of(&line), format!("{TOO_LONG}\n"));
}

#[test]
fn a_line_cut_off() {
    assert_eq!(output_of(b"free last"), format!("{CUT_OFF}\n"));
    assert_eq!(
        output_of(b"free last\nfree last"),
        format!("1\n{CUT_OFF}\n")
    );
    assert_eq!(output_of(b"\xff"), format!("{CUT_OFF}\n"));
    assert_eq!(output_of(b"turn free\nx\nfree rank member 1\n"), {
        format!("ok\n{COMMANDS}\n1\n")
    });
}

#[test]
fn a_line_that_is_no_text() {
    assert_eq!(output_of(b"free last\xff\n"), format!("{NO_TEXT}\n"));
    assert_eq!(output_of(b"\xc0\xaf\n"), format!("{NO_TEXT}\n"));
    assert_eq!(output_of(b"\xed\xa0\x80\n"), format!("{NO_TEXT}\n"));
    assert_eq!(output_of("frée\n".as_bytes()), format!("{COMMANDS}\n"));
    assert_eq!(output_of(b"free\0last\n"), format!("{COMMANDS}\n"));
    assert_eq!(output_of(b"free\x0blast\n"), format!("{COMMANDS}\n"));
}

#[test]
fn blanks_between_words() {
    assert_eq!(output_of(b"\r\x0c free\t \tlast \r\n"), "1\n");
}

#[test]
fn the_words() {
    play(&[
        ("x", COMMANDS),
        ("Open", COMMANDS),
        ("open", SLOTS),
        ("open x", SLOTS),
        ("open free", FORMS),
        ("open free Plain", FORMS),
        ("open free plain", NUMBER),
        ("open free plain x", NUMBER),
        ("open free plain 16", HEX),
        ("open free plain 16 870", HEX),
        ("open free plain 16 8g07", HEX),
        ("open free plain 16 --", HEX),
        ("open free plain 16 8707 x", END),
        ("open free list 16", NUMBERS),
        ("open free list 16 ,", NUMBERS),
        ("open free list 16 1,", NUMBERS),
        ("open free list 16 ,1", NUMBERS),
        ("open free list 16 1,,2", NUMBERS),
        ("open free list 16 65536", NUMBERS),
        ("open free list 16 1,+2", NUMBERS),
        ("open free list 16 1 2", END),
        ("open free zombit 16", NUMBER),
        ("open free zombit 16 2", HEX),
        ("open free zombit 16 2 d5", HEX),
        ("open free zombit 16 2 d5 3b", HEX),
        ("open free zombit 16 2 d5 3b 19 0", END),
        ("open free pioneer 16", NUMBER),
        ("open free pioneer 16 7", HEX),
        ("open free pioneer 16 7 8100", HEX),
        ("pair", FORMS),
        ("pair free", FORMS),
        ("pair plain 16 8707", NUMBER),
        ("pair plain 16 8707 plain", NUMBER),
        ("pair plain 0 00 16", HEX),
        ("pair list 3 1 3 1 1", END),
        ("fill", SLOTS),
        ("fill free", FORMS),
        ("fill free plain 2", END),
        ("fill free zombit", NUMBER),
        ("fill free zombit 0 0", END),
        ("turn", SLOTS),
        ("turn free class", END),
        ("level", SLOTS),
        ("level free", NUMBER),
        ("level free 0", NUMBER),
        ("level free 0 0 0", END),
        ("free", QUESTIONS),
        ("class rang", QUESTIONS),
        ("free last 1", END),
        ("free holds", NUMBER),
        ("free holds 4294967295", "no"),
        ("free holds 4294967296", NUMBER),
        ("free holds 00000000000000000000000000000001", "no"),
        ("free holds 99999999999999999999999999999999", NUMBER),
        ("free holds +1", NUMBER),
        ("free holds 1.", NUMBER),
        ("free holds \u{0661}", NUMBER),
        ("free next", SORTS),
        ("free next 1", SORTS),
        ("free next member", NUMBER),
        ("free previous others", SORTS),
        ("free rank member x", NUMBER),
        ("free select other", NUMBER),
        ("round 1", END),
        ("next 1", END),
        ("sheet", SHEET),
        ("sheet 65537", SHEET),
        ("sheet 65536", "no round"),
        ("go", NUMBER),
        ("count 1", NUMBER),
        ("nearest x", NUMBER),
        ("sign", NUMBER),
        ("pick -", NUMBER),
        ("close x", END),
    ]);
}

#[test]
fn no_round() {
    let calls = [
        "next",
        "sheet 0",
        "go 0",
        "count 0 0",
        "nearest 0",
        "sign 0",
        "pick 0",
        "close",
    ];
    let mut script = Vec::new();
    for call in calls {
        script.push((call, "no round"));
    }
    script.push(("round", "ok"));
    script.push(("close", "0 0 1"));
    for call in calls {
        script.push((call, "no round"));
    }
    play(&script);
}

#[test]
fn a_round_has_its_own_copy() {
    play(&[
        ("pair plain 16 8707 16 1223", "ok"),
        ("round", "ok"),
        ("turn free", "ok"),
        ("level class 3 4", "ok"),
        ("next", "2 2"),
        ("pick 7", "11"),
        ("round", "ok"),
        ("next", "0 1"),
        ("close", "0 1 3"),
    ]);
}

#[test]
fn a_sheet_keeps_what_lies_behind() {
    play(&[
        ("pair plain 16 8707 16 1223", "ok"),
        ("round", "ok"),
        ("sheet 0", "0 0"),
        ("sheet 5", "3 9 2 9 10 7 7"),
        ("sheet 2", "0 0 7 7"),
        ("next", "0 0"),
        ("close", "3 9 17"),
    ]);
    play(&[("round", "ok"), {
        let sevens = " 7".repeat(65_536);
        let answer: &'static str = Box::leak(format!("0 1{sevens}").into_boxed_str());
        ("sheet 65536", answer)
    }]);
}

#[test]
fn a_refusal_changes_nothing() {
    play(&[
        ("pair plain 16 8707 16 1223", "ok"),
        ("fill free zombit 2", "ok 16 2 d5 3b 19"),
        ("open free list 3 4", "refused 3 list 1"),
        ("fill free zombit 4097", "refused 4 zombit 0"),
        ("level free 0 1", "refused 7"),
        ("pair list 1 1 1 2", "refused 3 list 1 class"),
        ("turn free", "ok"),
        ("turn free", "ok"),
        ("fill free plain", "ok 16 8707"),
        ("fill class plain", "ok 16 1223"),
    ]);
}

#[test]
fn hex_in_either_case() {
    play(&[
        ("open free zombit 16 02 D5 3b 19", "ok"),
        ("fill free plain", "ok 16 8707"),
        ("open free plain 08 aB", "ok"),
        ("fill free plain", "ok 8 ab"),
    ]);
}
