//! Lines that ask the set of a slot.

use crate::chance::Chance;
use crate::command::{Command, Wanted, SLOTS};
use crate::line::Line;
use crate::numbers;
use crate::world::{Effect, World};

const SORTS: [&str; 2] = ["member", "other"];

pub fn ask(chance: &mut Chance, world: &World, slot: usize) -> Line {
    let held = &world.slots[slot];
    let question = chance.weigh(&[(5, "last"), (18, "holds"), (20, "next"), (20, "previous"), (20, "rank"), (17, "select")]);
    // The name of the slot is the first word, and so the command.
    let mut command = Command::new(SLOTS[slot]).with(Wanted::Question, question);
    let mut kind = format!("ask: {question} {}", held.form.name());
    let mut number = numbers::place(chance, &held.set, held.size);
    if !matches!(question, "last" | "holds") {
        let sort = chance.choose(&SORTS);
        command = command.with(Wanted::Sort, sort);
        kind = format!("{kind} {sort}");
        if question == "select" {
            let (last, members) = (held.set.last(), held.set.count());
            let count = if sort == "member" { members } else { last - members };
            number = numbers::ordinal(chance, count, last);
        }
    }
    if question != "last" {
        command = command.number(chance, number);
    }
    Line::new(kind, command, Effect::Nothing)
}
