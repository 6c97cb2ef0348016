//! The console: what each command does to the slots and the round, and what it answers (docs/CONSOLE.md).

use std::io::{self, Write};

use crate::commands::{self, Call, Command, Question};
use crate::forms::{self, Index, Source};
use crate::lines::{self, Line};
use crate::refusals::{Fault, Refusal};
use crate::round::Round;
use crate::sets::{self, Set};
use crate::words::Slot;
use crate::{help, layers};

pub struct Console {
    free: Index,
    class: Index,
    round: Option<Round>,
}

/// Answers an input, line by line.
pub fn run(input: &[u8], output: &mut impl Write) -> io::Result<()> {
    if input.is_empty() {
        return output.write_all(help::TEXT.as_bytes());
    }
    let mut console = Console::new();
    for (bytes, cut_off) in lines::split(input) {
        if let Some(answer) = console.answer(bytes, cut_off) {
            output.write_all(answer.as_bytes())?;
            output.write_all(b"\n")?;
        }
    }
    Ok(())
}

impl Default for Console {
    fn default() -> Console {
        Console::new()
    }
}

impl Console {
    pub fn new() -> Console {
        Console {
            free: forms::built_in(),
            class: forms::built_in(),
            round: None,
        }
    }

    /// The answer to a line, or none where it is passed over.
    pub fn answer(&mut self, bytes: &[u8], cut_off: bool) -> Option<String> {
        match lines::read(bytes, cut_off) {
            Line::PassedOver => None,
            Line::Unreadable(expected) => Some(format!("error: expected {expected}")),
            Line::Text(text) => match commands::read(text) {
                Err(expected) => Some(format!("error: expected {expected}")),
                Ok(command) => Some(self.obey(command)),
            },
        }
    }

    fn obey(&mut self, command: Command) -> String {
        match command {
            Command::Open(slot, source) => match self.open(slot, &source) {
                Ok(()) => "ok".to_string(),
                Err(fault) => fault.to_string(),
            },
            Command::Pair(free, class) => match self.pair(&free, &class) {
                Ok(()) => "ok".to_string(),
                Err((fault, side)) => format!("{fault} {side}"),
            },
            Command::Fill(slot, choice) => {
                let filled = forms::fill(&self.index(slot).set, choice);
                match filled.and_then(|source| self.open(slot, &source).map(|()| source)) {
                    Ok(source) => format!("ok {}", written(&source)),
                    Err(fault) => fault.to_string(),
                }
            }
            Command::Turn(slot) => {
                let set = layers::turned(&self.index(slot).set);
                self.put(slot, set)
            }
            Command::Level(slot, a, b) => match layers::level(&self.index(slot).set, a, b) {
                Ok(set) => self.put(slot, set),
                Err(refusal) => refusal.to_string(),
            },
            Command::Ask(slot, question) => ask(&self.index(slot).set, question),
            Command::Round => {
                self.round = Some(Round::new(&self.free.set, &self.class.set));
                "ok".to_string()
            }
            Command::Call(call) => match &mut self.round {
                None => "no round".to_string(),
                Some(round) => call_round(round, call),
            },
            Command::Close => match self.round.take() {
                None => "no round".to_string(),
                Some(round) => {
                    let report = round.close();
                    format!("{} {} {}", report.handed, report.stretches, report.place)
                }
            },
        }
    }

    fn index(&self, slot: Slot) -> &Index {
        match slot {
            Slot::Free => &self.free,
            Slot::Class => &self.class,
        }
    }

    /// Opens an index in the place of the slot's, or leaves that as it was.
    fn open(&mut self, slot: Slot, source: &Source) -> Result<(), Fault> {
        let index = forms::open(source)?;
        match slot {
            Slot::Free => self.free = index,
            Slot::Class => self.class = index,
        }
        Ok(())
    }

    /// Opens both indexes, or leaves both as they were.
    fn pair(&mut self, free: &Source, class: &Source) -> Result<(), (Fault, &'static str)> {
        let free = forms::open(free).map_err(|fault| (fault, "free"))?;
        let class = forms::open(class).map_err(|fault| (fault, "class"))?;
        self.free = free;
        self.class = class;
        Ok(())
    }

    /// Puts a set, filled into the form and the block size that the slot's index has, in its place.
    fn put(&mut self, slot: Slot, set: Set) -> String {
        let choice = self.index(slot).choice;
        let filled = forms::fill(&set, choice);
        match filled.and_then(|source| self.open(slot, &source)) {
            Ok(()) => "ok".to_string(),
            Err(fault) => fault.to_string(),
        }
    }
}

/// The answer of a set to a question.
fn ask(set: &[bool], question: Question) -> String {
    match question {
        Question::Last => sets::last(set).to_string(),
        Question::Holds(i) => if sets::holds(set, i) { "yes" } else { "no" }.to_string(),
        Question::Next(sort, i) => number_or_none(sets::next(set, sort, i)),
        Question::Previous(sort, i) => number_or_none(sets::previous(set, sort, i)),
        Question::Rank(sort, i) => sets::rank(set, sort, i).to_string(),
        Question::Select(sort, k) => number_or_none(sets::select(set, sort, k)),
    }
}

/// The answer of the open round to a call.
fn call_round(round: &mut Round, call: Call) -> String {
    match call {
        Call::Next => {
            let (bay, stretches) = round.next();
            format!("{} {}", bay.unwrap_or(0), stretches)
        }
        Call::Sheet(n) => {
            let mut memory = vec![7; n as usize];
            let (bays, stretches) = round.sheet(&mut memory);
            let mut answer = format!("{bays} {stretches}");
            for number in memory {
                answer.push(' ');
                answer.push_str(&number.to_string());
            }
            answer
        }
        Call::Go(q) => match round.go(q) {
            Ok(()) => "ok".to_string(),
            Err(refusal) => refusal.to_string(),
        },
        Call::Count(a, b) => number_or_refusal(round.count(a, b)),
        Call::Nearest(p) => match round.nearest(p) {
            Ok(bay) => number_or_none(bay),
            Err(refusal) => refusal.to_string(),
        },
        Call::Sign(s) => match round.sign(s) {
            Ok(bay) => number_or_none(bay),
            Err(refusal) => refusal.to_string(),
        },
        Call::Pick(k) => number_or_refusal(round.pick(k)),
    }
}

fn number_or_none(number: Option<u64>) -> String {
    match number {
        Some(number) => number.to_string(),
        None => "none".to_string(),
    }
}

fn number_or_refusal(answer: Result<u64, Refusal>) -> String {
    match answer {
        Ok(number) => number.to_string(),
        Err(refusal) => refusal.to_string(),
    }
}

/// NUMBERS and PARTS of what was filled, in the notation of `open`.
fn written(source: &Source) -> String {
    match source {
        Source::Plain { last, bits } => format!("{last} {}", hex(bits)),
        Source::List { last, numbers } => format!("{last} {}", with_commas(numbers)),
        Source::Zombit { last, size, parts } => format!(
            "{last} {size} {} {} {}",
            hex(&parts.uniform),
            hex(&parts.marked),
            hex(&parts.mixed)
        ),
        Source::Pioneer {
            last,
            count,
            starts,
            sums,
        } => format!("{last} {count} {} {}", hex(starts), hex(sums)),
    }
}

fn hex(bytes: &[u8]) -> String {
    if bytes.is_empty() {
        return "-".to_string();
    }
    let mut word = String::new();
    for byte in bytes {
        word.push_str(&format!("{byte:02x}"));
    }
    word
}

fn with_commas(numbers: &[u64]) -> String {
    if numbers.is_empty() {
        return "-".to_string();
    }
    let mut word = String::new();
    for number in numbers {
        if !word.is_empty() {
            word.push(',');
        }
        word.push_str(&number.to_string());
    }
    word
}
