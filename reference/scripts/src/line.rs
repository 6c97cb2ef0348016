//! A line before it is written: its kind for the tally, its command, and what it changes.

use crate::command::Command;
use crate::world::Effect;

pub struct Line {
    pub kind: String,
    pub command: Command,
    pub effect: Effect,
}

impl Line {
    pub fn new(kind: impl Into<String>, command: Command, effect: Effect) -> Line {
        Line { kind: kind.into(), command, effect }
    }
}
