//! Lines of the round.

use crate::chance::Chance;
use crate::command::Command;
use crate::line::Line;
use crate::numbers::{self, FAR};
use crate::world::{Effect, Round, World};

const POSTS: [u64; 16] = [1, 24, 49, 61, 97, 122, 148, 160, 203, 231, 256, 277, 310, 344, 371, 402];

/// A kind of line, with a word before it where no round is open.
fn kind(world: &World, text: String) -> String {
    if world.round.is_some() {
        text
    } else {
        let name = text.split(':').next().unwrap_or("");
        format!("{name}: no round")
    }
}

pub fn open(world: &World) -> Line {
    let text = if world.round.is_some() { "round: over an open one" } else { "round: fresh" };
    Line::new(text, Command::new("round"), Effect::Open)
}

pub fn next(world: &World) -> Line {
    let text = match &world.round {
        Some(round) if round.place > round.last() => "next: past the end",
        Some(round) if round.next_common().is_none() => "next: none",
        _ => "next: a bay",
    };
    Line::new(kind(world, text.to_string()), Command::new("next"), Effect::Next)
}

pub fn close(world: &World) -> Line {
    Line::new(kind(world, "close: ok".to_string()), Command::new("close"), Effect::Close)
}

/// Any call of a round but `round` and `close`.
pub fn call(chance: &mut Chance, world: &World) -> Line {
    match chance.below(100) {
        0..=29 => next(world),
        30..=43 => sheet(chance, world),
        44..=58 => go(chance, world),
        59..=70 => count(chance, world),
        71..=82 => nearest(chance, world),
        83..=90 => sign(chance, world),
        _ => pick(chance, world),
    }
}

/// The last bay of the round, or what it would be.
fn last(world: &World) -> u64 {
    match &world.round {
        Some(round) => round.last(),
        None => world.slots[0].set.last().min(world.slots[1].set.last()),
    }
}

pub fn sheet(chance: &mut Chance, world: &World) -> Line {
    let last = last(world);
    let ahead = world.round.as_ref().map_or(0, Round::ahead);
    let mut room = match chance.below(12) {
        0 => 0,
        1 | 2 => 1,
        3 => last,
        4 => last + 1,
        5 => ahead,
        6 => ahead + 1,
        7 => ahead.saturating_sub(1),
        8 => chance.between(0, ahead + 2),
        _ => chance.between(2, 6),
    };
    if room > 100 && !chance.one_in(6) {
        room = chance.between(0, 5);
    }
    if chance.one_in(600) {
        room = chance.choose(&[65_535, 65_536, 65_536, 20_000]);
    }
    let room = room.min(65_536);
    let text = match room {
        0 => "sheet: of none".to_string(),
        _ if room > 1_000 => "sheet: large".to_string(),
        _ if room > ahead => "sheet: more than there are".to_string(),
        _ => "sheet: full".to_string(),
    };
    let command = Command::new("sheet").sheet_number(chance, room);
    Line::new(kind(world, text), command, Effect::Sheet(room))
}

pub fn go(chance: &mut Chance, world: &World) -> Line {
    let last = last(world);
    let present = world.round.as_ref().map_or(1, |round| round.place);
    let next = world.round.as_ref().and_then(Round::next_common);
    let place = match chance.below(20) {
        0 => 0,
        1 | 2 => last + 1,
        3 | 4 => last + 2,
        5 => chance.choose(&FAR),
        6 | 7 => present - 1,
        8 => 1,
        9..=11 => present,
        12 => present + 1,
        13 | 14 => next.map_or(last, |bay| bay + chance.below(2)),
        15 => last,
        16 => chance.between(1, present),
        _ => chance.between(present, (present + 5).min(last)),
    };
    let text = match place {
        0 => "go: refused 7".to_string(),
        _ if place > last + 1 => "go: refused 9".to_string(),
        _ if place < present => "go: refused 10".to_string(),
        _ if place == present => "go: to the present place".to_string(),
        _ if place == last + 1 => "go: to the end".to_string(),
        _ => "go: ahead".to_string(),
    };
    let command = Command::new("go").number(chance, place);
    Line::new(kind(world, text), command, Effect::Go(place))
}

fn count(chance: &mut Chance, world: &World) -> Line {
    let last = last(world);
    let (first, end) = numbers::bounds(chance, last);
    let text = if first == 0 || end == 0 || first > end {
        "count: refused 7"
    } else if end > last {
        "count: refused 9"
    } else {
        "count: ok"
    };
    let command = Command::new("count").number(chance, first).number(chance, end);
    Line::new(kind(world, text.to_string()), command, Effect::Nothing)
}

fn nearest(chance: &mut Chance, world: &World) -> Line {
    let last = last(world);
    let free = world.round.as_ref().map_or(&world.slots[0].set, |round| &round.free);
    let bay = match chance.below(12) {
        0 => 0,
        1 => 1,
        2 => last,
        3 => last + 1,
        4 => chance.choose(&FAR),
        5..=7 => {
            // Around the middle of a gap or a run.
            let from = chance.between(1, last);
            let start = free.change_from(from);
            (start + free.change_from(start + 1)) / 2 + chance.below(2)
        }
        _ => chance.between(1, last),
    };
    let text = match bay {
        0 => "nearest: refused 7",
        _ if bay > last => "nearest: refused 9",
        _ if free.count_to(last) == 0 => "nearest: none",
        _ => "nearest: a bay",
    };
    let command = Command::new("nearest").number(chance, bay);
    Line::new(kind(world, text.to_string()), command, Effect::Nothing)
}

fn sign(chance: &mut Chance, world: &World) -> Line {
    let last = last(world);
    let reached = POSTS.iter().filter(|post| **post <= last).count() as u64;
    let sign = match chance.below(12) {
        0 => 0,
        1 => 17,
        2 => chance.choose(&[4_294_967_295, 18, 24, 402, 65_537, 256]),
        3 => reached + 1,
        4 => 16,
        5..=7 => chance.between(1, reached),
        8 => reached,
        _ => chance.between(1, 16),
    };
    let text = match sign {
        1..=16 if sign <= reached => "sign: ok",
        1..=16 => "sign: refused 9",
        _ => "sign: refused 8",
    };
    let command = Command::new("sign").number(chance, sign);
    Line::new(kind(world, text.to_string()), command, Effect::Nothing)
}

fn pick(chance: &mut Chance, world: &World) -> Line {
    let last = last(world);
    let free = world.round.as_ref().map_or(&world.slots[0].set, |round| &round.free);
    let there = free.count_to(last);
    let number = match chance.below(6) {
        // What the set has beyond the round's last bay does not count.
        0 => free.count(),
        _ => numbers::ordinal(chance, there, last),
    };
    let text = match number {
        0 => "pick: refused 7",
        _ if number > there => "pick: refused 11",
        _ => "pick: ok",
    };
    let command = Command::new("pick").number(chance, number);
    Line::new(kind(world, text.to_string()), command, Effect::Nothing)
}
