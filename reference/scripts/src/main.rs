//! `scripts SEED LINES` writes a random script for the console; with `kinds` behind, it counts the kinds of lines on standard error.

mod bits;
mod chance;
mod command;
mod damage;
mod encode;
mod ending;
mod giants;
mod index;
mod indexes;
mod judge;
mod line;
mod numbers;
mod passed;
mod questions;
mod rounds;
mod script;
mod sets;
mod shapes;
mod sizes;
mod spacing;
mod tally;
mod unreadable;
mod world;

use std::io::{self, BufWriter, ErrorKind, Write};
use std::process::ExitCode;

use script::Script;
use tally::Tally;

const USAGE: &str = "usage: scripts SEED LINES [kinds], where SEED is from 0 to 18446744073709551615";

fn main() -> ExitCode {
    let words: Vec<String> = std::env::args().skip(1).collect();
    let numbers: Vec<u64> = words.iter().take(2).filter_map(|word| word.parse().ok()).collect();
    let counted = words.get(2).is_some_and(|word| word == "kinds");
    if numbers.len() != 2 || words.len() > 3 || (words.len() == 3 && !counted) {
        eprintln!("{USAGE}");
        return ExitCode::from(2);
    }
    let mut tally = Tally::default();
    match write(numbers[0], numbers[1], counted.then_some(&mut tally)) {
        Ok(()) => {}
        // Whoever reads may stop early.
        Err(error) if error.kind() == ErrorKind::BrokenPipe => {}
        Err(error) => {
            eprintln!("scripts: {error}");
            return ExitCode::FAILURE;
        }
    }
    if counted {
        eprint!("{}", tally.report());
    }
    ExitCode::SUCCESS
}

fn write(seed: u64, lines: u64, mut tally: Option<&mut Tally>) -> io::Result<()> {
    let mut output = BufWriter::with_capacity(1 << 16, io::stdout().lock());
    let mut script = Script::new(seed);
    for number in 1..=lines {
        let (mut kind, mut line) = script.line();
        let cut = if number == lines { ending::cut(seed, &kind, &line) } else { None };
        let whole = cut.is_none();
        if let Some(ending) = cut {
            (kind, line) = ending;
        }
        output.write_all(&line)?;
        if whole {
            output.write_all(b"\n")?;
        }
        if let Some(tally) = &mut tally {
            tally.add(&kind, line.len() + 1);
        }
    }
    output.flush()
}
