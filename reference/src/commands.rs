//! The commands: which words follow which, to the end of the line (docs/CONSOLE.md, the tables of commands).

use crate::forms::{Choice, Source};
use crate::sets::Sort;
use crate::words::{Expected, Form, Slot, Words};
use crate::zombit;

#[derive(Debug, PartialEq, Eq)]
pub enum Command {
    Open(Slot, Source),
    Pair(Source, Source),
    Fill(Slot, Choice),
    Turn(Slot),
    Level(Slot, u64, u64),
    Ask(Slot, Question),
    Round,
    Call(Call),
    Close,
}

/// A question of a slot's set.
#[derive(Debug, PartialEq, Eq)]
pub enum Question {
    Last,
    Holds(u64),
    Next(Sort, u64),
    Previous(Sort, u64),
    Rank(Sort, u64),
    Select(Sort, u64),
}

/// A call of the open round that leaves it open.
#[derive(Debug, PartialEq, Eq)]
pub enum Call {
    Next,
    Sheet(u64),
    Go(u64),
    Count(u64, u64),
    Nearest(u64),
    Sign(u64),
    Pick(u64),
}

/// Reads all of a line.
pub fn read(line: &str) -> Result<Command, Expected> {
    let mut words = Words::of(line);
    let command = read_command(&mut words)?;
    words.end()?;
    Ok(command)
}

fn read_command(words: &mut Words) -> Result<Command, Expected> {
    match words.command() {
        "open" => {
            let slot = words.slot()?;
            let form = words.form()?;
            Ok(Command::Open(slot, read_source(words, form)?))
        }
        "pair" => {
            let form = words.form()?;
            let free = read_source(words, form)?;
            let class = read_source(words, form)?;
            Ok(Command::Pair(free, class))
        }
        "fill" => {
            let slot = words.slot()?;
            let choice = match words.form()? {
                Form::Plain => Choice::Plain,
                Form::List => Choice::List,
                Form::Zombit => Choice::Zombit {
                    size: words.number()?,
                },
                Form::Pioneer => Choice::Pioneer,
            };
            Ok(Command::Fill(slot, choice))
        }
        "turn" => Ok(Command::Turn(words.slot()?)),
        "level" => {
            let slot = words.slot()?;
            let a = words.number()?;
            let b = words.number()?;
            Ok(Command::Level(slot, a, b))
        }
        "free" => Ok(Command::Ask(Slot::Free, read_question(words)?)),
        "class" => Ok(Command::Ask(Slot::Class, read_question(words)?)),
        "round" => Ok(Command::Round),
        "next" => Ok(Command::Call(Call::Next)),
        "sheet" => Ok(Command::Call(Call::Sheet(words.number_of_a_sheet()?))),
        "go" => Ok(Command::Call(Call::Go(words.number()?))),
        "count" => {
            let a = words.number()?;
            let b = words.number()?;
            Ok(Command::Call(Call::Count(a, b)))
        }
        "nearest" => Ok(Command::Call(Call::Nearest(words.number()?))),
        "sign" => Ok(Command::Call(Call::Sign(words.number()?))),
        "pick" => Ok(Command::Call(Call::Pick(words.number()?))),
        "close" => Ok(Command::Close),
        _ => Err("a command: open, pair, fill, turn, level, free, class, round, next, sheet, go, count, nearest, sign, pick or close"),
    }
}

/// NUMBERS and PARTS of a form.
fn read_source(words: &mut Words, form: Form) -> Result<Source, Expected> {
    match form {
        Form::Plain => Ok(Source::Plain {
            last: words.number()?,
            bits: words.part_in_hex()?,
        }),
        Form::List => Ok(Source::List {
            last: words.number()?,
            numbers: words.part_in_numbers()?,
        }),
        Form::Zombit => Ok(Source::Zombit {
            last: words.number()?,
            size: words.number()?,
            parts: zombit::Parts {
                uniform: words.part_in_hex()?,
                marked: words.part_in_hex()?,
                mixed: words.part_in_hex()?,
            },
        }),
        Form::Pioneer => Ok(Source::Pioneer {
            last: words.number()?,
            count: words.number()?,
            starts: words.part_in_hex()?,
            sums: words.part_in_hex()?,
        }),
    }
}

fn read_question(words: &mut Words) -> Result<Question, Expected> {
    match words.question() {
        "last" => Ok(Question::Last),
        "holds" => Ok(Question::Holds(words.number()?)),
        "next" => Ok(Question::Next(words.sort()?, words.number()?)),
        "previous" => Ok(Question::Previous(words.sort()?, words.number()?)),
        "rank" => Ok(Question::Rank(words.sort()?, words.number()?)),
        "select" => Ok(Question::Select(words.sort()?, words.number()?)),
        _ => Err("a question: last, holds, next, previous, rank or select"),
    }
}
