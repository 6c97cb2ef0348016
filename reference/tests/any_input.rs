//! Whatever is read: each line has one answer, and nothing panics.

mod common;
use common::output_of;

/// A small generator of numbers, the same in each run.
struct Numbers(u64);

impl Numbers {
    fn below(&mut self, end: usize) -> usize {
        self.0 = self
            .0
            .wrapping_mul(6364136223846793005)
            .wrapping_add(1442695040888963407);
        (self.0 >> 33) as usize % end
    }
}

const WORDS: [&str; 64] = [
    "open",
    "pair",
    "fill",
    "turn",
    "level",
    "free",
    "class",
    "round",
    "next",
    "sheet",
    "go",
    "count",
    "nearest",
    "sign",
    "pick",
    "close",
    "plain",
    "list",
    "zombit",
    "pioneer",
    "last",
    "holds",
    "previous",
    "rank",
    "select",
    "member",
    "other",
    "0",
    "1",
    "2",
    "3",
    "7",
    "8",
    "9",
    "16",
    "17",
    "402",
    "4096",
    "4097",
    "65535",
    "65536",
    "4294967295",
    "4294967296",
    "-",
    "00",
    "01",
    "0f",
    "ff",
    "8707",
    "1223",
    "d5",
    "3b",
    "19",
    "8100",
    "44",
    "1,2,3",
    "2,5,9",
    ",",
    "#",
    "x",
    "99999999999999999999999999",
    "65535,1",
    "0,0",
    "0000",
];

#[test]
fn random_words() {
    let mut numbers = Numbers(1);
    for _ in 0..2000 {
        let mut input = String::new();
        for _ in 0..50 {
            // Two words that often fit, then any.
            input.push_str(WORDS[numbers.below(16)]);
            for _ in 0..numbers.below(9) {
                input.push(' ');
                input.push_str(WORDS[numbers.below(WORDS.len())]);
            }
            input.push('\n');
        }
        assert_eq!(output_of(input.as_bytes()).lines().count(), 50);
    }
}

#[test]
fn random_bytes() {
    let mut numbers = Numbers(2);
    for _ in 0..2000 {
        let mut input = Vec::new();
        for _ in 0..numbers.below(300) {
            input.push(numbers.below(256) as u8);
        }
        output_of(&input);
    }
}

#[test]
fn random_indexes() {
    let mut numbers = Numbers(3);
    let mut accepted = 0;
    for _ in 0..20_000 {
        let form = ["plain", "list", "zombit", "pioneer"][numbers.below(4)];
        let mut line = format!("open free {form} {}", numbers.below(20));
        match form {
            "zombit" => line.push_str(&format!(" {}", numbers.below(8))),
            "pioneer" => line.push_str(&format!(" {}", numbers.below(8))),
            _ => {}
        }
        let parts = match form {
            "plain" | "list" => 1,
            "zombit" => 3,
            _ => 2,
        };
        for _ in 0..parts {
            let length = numbers.below(4);
            line.push_str(if length == 0 { " -" } else { " " });
            for place in 0..length {
                if form == "list" {
                    line.push_str(if place > 0 { "," } else { "" });
                    line.push_str(&numbers.below(20).to_string());
                } else {
                    let byte = numbers.below(256) & numbers.below(256) & numbers.below(256);
                    line.push_str(&format!("{byte:02x}"));
                }
            }
        }
        line.push_str("\nturn free\nlevel free 2 9\nfill class pioneer\nround\nsheet 9\nclose\n");
        let output = output_of(line.as_bytes());
        assert_eq!(output.lines().count(), 7);
        if output.starts_with("ok") {
            accepted += 1;
        }
    }
    assert!(accepted > 1000, "{accepted}");
}
