//! Lines that change a slot: open, pair, fill, turn and level.

use crate::bits;
use crate::chance::Chance;
use crate::command::Command;
use crate::damage::damage;
use crate::encode::encode;
use crate::index::{Form, Index, Part, FORMS};
use crate::judge::{judge, Refused};
use crate::line::Line;
use crate::numbers;
use crate::sets::Set;
use crate::shapes;
use crate::sizes;
use crate::world::{Effect, Slot, World};

/// Above so many members the list form is seldom taken, as its lines grow long.
const MANY_MEMBERS: u64 = 1_500;

/// A set for the slot; sometimes one that has to do with that of the other slot.
fn new_set(chance: &mut Chance, world: &World, slot: usize) -> Set {
    let other = &world.slots[1 - slot].set;
    if chance.percent(30) {
        beside(chance, other)
    } else {
        let last = shapes::last_bay(chance);
        shapes::set_of(chance, last)
    }
}

/// A set to stand beside the other one: mostly with the same last bay.
fn beside(chance: &mut Chance, other: &Set) -> Set {
    match chance.below(12) {
        0 => other.clone(),
        1 => other.turned(),
        2 => {
            let last = (other.last() + chance.below(3)).clamp(2, 65_536) - 1;
            shapes::set_of(chance, last)
        }
        3 => {
            let last = shapes::small_last(chance);
            shapes::set_of(chance, last)
        }
        _ => shapes::set_of(chance, other.last()),
    }
}

/// The set in the form, or a thinner one where the line would be too long.
fn written(chance: &mut Chance, set: Set, form: Form) -> Index {
    let too_long = form == Form::List && set.count() > MANY_MEMBERS && !chance.one_in(20);
    let set = if too_long { shapes::thin_set(chance, set.last()) } else { set };
    let size = sizes::good(chance, set.last());
    encode(&set, form, size)
}

/// An index of many bays in a short line.
fn large_and_short(chance: &mut Chance, form: Form) -> Index {
    let last = shapes::large_last(chance);
    let set = shapes::simple_set(chance, last, form == Form::Zombit);
    let size = sizes::large(chance);
    encode(&set, form, size)
}

/// The list and the zombit form have room for many bays in a short line.
fn may_be_large(chance: &mut Chance, form: Form) -> bool {
    matches!(form, Form::List | Form::Zombit) && chance.one_in(16)
}

fn random_row(chance: &mut Chance, length: u64, share: u64) -> Vec<bool> {
    (0..length).map(|_| chance.percent(share)).collect()
}

/// An index of a few bays whose parts have the right lengths, but any bits.
fn raw(chance: &mut Chance, form: Form) -> Index {
    let last = chance.between(1, 12);
    let (second, rows) = match form {
        Form::Plain => (0, vec![random_row(chance, last, 50)]),
        Form::List => {
            let length = chance.below(4);
            let numbers = (0..length).map(|_| chance.below(last + 2)).collect();
            return Index { form, last, second: 0, parts: vec![Part::Numbers(numbers)] };
        }
        Form::Zombit => {
            let size = chance.between(2, 5);
            let blocks = last.div_ceil(size);
            let uniform = random_row(chance, blocks, 50);
            let mut marked = random_row(chance, blocks, 50);
            if chance.percent(60) {
                // Mixed blocks have their bit in O, so that M counts.
                for (block, same) in uniform.iter().enumerate() {
                    marked[block] |= !same;
                }
            }
            let written = uniform.iter().filter(|same| !**same).count() as u64 * size;
            let mixed = random_row(chance, written, 50);
            (size, vec![uniform, marked, mixed])
        }
        Form::Pioneer => {
            let count = chance.between(0, last.min(6));
            let share = chance.choose(&[20, 35, 50]);
            let starts = random_row(chance, last, share);
            let mut sums = random_row(chance, count, 50);
            if let Some(end) = sums.last_mut() {
                *end |= chance.percent(80);
            }
            (count, vec![starts, sums])
        }
    };
    let parts = rows.iter().map(|row| Part::Bytes(bits::pack(row))).collect();
    Index { form, last, second, parts }
}

fn damaged(chance: &mut Chance, index: &mut Index) {
    let times = chance.weigh(&[(70, 1), (20, 2), (7, 3), (3, 4)]);
    for _ in 0..times {
        damage(chance, index);
    }
}

fn slot_of(index: &Index, set: Set) -> Slot {
    Slot { set, form: index.form, size: index.second.max(2) }
}

fn refusal_text(refused: Refused, form: Form) -> String {
    format!("refused {} {} {}", refused.number, form.name(), refused.part)
}

fn open_index(chance: &mut Chance, slot: usize, index: &Index, name: &str) -> Line {
    let command = Command::new("open").slot(slot).form(index.form).index(chance, index);
    match judge(index) {
        Ok(set) => Line::new(format!("{name}: ok {}", index.form.name()), command, Effect::Put(slot, slot_of(index, set))),
        Err(refused) => Line::new(format!("{name}: {}", refusal_text(refused, index.form)), command, Effect::Nothing),
    }
}

pub fn open_lawful(chance: &mut Chance, world: &World, slot: usize) -> Line {
    let form = chance.choose(&FORMS);
    if may_be_large(chance, form) {
        let index = large_and_short(chance, form);
        return open_index(chance, slot, &index, "open lawful");
    }
    let set = new_set(chance, world, slot);
    let index = written(chance, set, form);
    open_index(chance, slot, &index, "open lawful")
}

/// A short one, lists more often than the rest.
pub fn open_short(chance: &mut Chance, slot: usize) -> Line {
    let form = chance.weigh(&[(1, Form::Plain), (4, Form::List), (1, Form::Zombit), (1, Form::Pioneer)]);
    let last = chance.between(1, 20);
    let set = shapes::set_of(chance, last);
    let size = chance.between(2, 8);
    let index = encode(&set, form, size);
    open_index(chance, slot, &index, "open lawful")
}

pub fn open_damaged(chance: &mut Chance, world: &World, slot: usize) -> Line {
    let form = any_form_to_damage(chance);
    if chance.percent(20) {
        let index = raw(chance, form);
        return open_index(chance, slot, &index, "open any bits");
    }
    let mut index = if may_be_large(chance, form) {
        large_and_short(chance, form)
    } else {
        let set = new_set(chance, world, slot);
        written(chance, set, form)
    };
    damaged(chance, &mut index);
    open_index(chance, slot, &index, "open damaged")
}

/// The forms with more parts have more to damage.
fn any_form_to_damage(chance: &mut Chance) -> Form {
    chance.weigh(&[(18, Form::Plain), (18, Form::List), (40, Form::Zombit), (24, Form::Pioneer)])
}

fn pair_of(chance: &mut Chance, free: &Index, class: &Index, name: &str) -> Line {
    let form = free.form;
    let command = Command::new("pair").form(form).index(chance, free).index(chance, class);
    match (judge(free), judge(class)) {
        (Ok(free_set), Ok(class_set)) => {
            let both = [slot_of(free, free_set), slot_of(class, class_set)];
            Line::new(format!("{name}: ok {}", form.name()), command, Effect::PutBoth(Box::new(both)))
        }
        (Err(refused), _) => Line::new(format!("{name}: {} free", refusal_text(refused, form)), command, Effect::Nothing),
        (_, Err(refused)) => Line::new(format!("{name}: {} class", refusal_text(refused, form)), command, Effect::Nothing),
    }
}

fn two_indexes(chance: &mut Chance, form: Form) -> (Index, Index) {
    if may_be_large(chance, form) {
        return (large_and_short(chance, form), large_and_short(chance, form));
    }
    let last = shapes::last_bay(chance);
    let free_set = shapes::set_of(chance, last);
    let class_set = beside(chance, &free_set);
    let free = written(chance, free_set, form);
    let mut class = written(chance, class_set, form);
    if form == Form::Zombit && chance.one_in(3) {
        // Both in blocks of one size.
        if let Ok(set) = judge(&class) {
            class = encode(&set, form, free.second);
        }
    }
    (free, class)
}

pub fn pair_lawful(chance: &mut Chance) -> Line {
    let form = chance.choose(&FORMS);
    let (free, class) = two_indexes(chance, form);
    pair_of(chance, &free, &class, "pair lawful")
}

pub fn pair_damaged(chance: &mut Chance) -> Line {
    let form = any_form_to_damage(chance);
    let (mut free, mut class) = if chance.percent(15) {
        (raw(chance, form), raw(chance, form))
    } else {
        two_indexes(chance, form)
    };
    let (first, second) = chance.weigh(&[(35, (true, false)), (45, (false, true)), (20, (true, true))]);
    if first {
        damaged(chance, &mut free);
    }
    if second {
        damaged(chance, &mut class);
    }
    pair_of(chance, &free, &class, "pair damaged")
}

pub fn fill(chance: &mut Chance, world: &World, slot: usize) -> Line {
    let old = &world.slots[slot];
    let mut form = chance.weigh(&[(20, Form::Plain), (20, Form::List), (35, Form::Zombit), (25, Form::Pioneer)]);
    if form == Form::List && old.set.count() > MANY_MEMBERS && !chance.one_in(20) {
        form = Form::Pioneer;
    }
    let mut command = Command::new("fill").slot(slot).form(form);
    let mut size = 2;
    if form == Form::Zombit {
        let bad = chance.one_in(6);
        size = if bad { chance.choose(&sizes::BAD) } else { sizes::good(chance, old.set.last()) };
        command = command.number(chance, size);
        if bad {
            return Line::new("fill: refused 4 zombit 0", command, Effect::Nothing);
        }
    }
    let kind = format!("fill: ok {} from {}", form.name(), old.form.name());
    Line::new(kind, command, Effect::Put(slot, Slot { set: old.set.clone(), form, size }))
}

pub fn turn(world: &World, slot: usize) -> Line {
    let old = &world.slots[slot];
    let new = Slot { set: old.set.turned(), ..*old };
    Line::new(format!("turn: ok {}", old.form.name()), Command::new("turn").slot(slot), Effect::Put(slot, new))
}

/// A level whose bounds are good, or anything.
pub fn level(chance: &mut Chance, world: &World, slot: usize, good: bool) -> Line {
    let old = &world.slots[slot];
    let last = old.set.last();
    let (first, end) = if good { numbers::good_bounds(chance, last) } else { numbers::bounds(chance, last) };
    let command = Command::new("level").slot(slot).number(chance, first).number(chance, end);
    if first == 0 || end == 0 || first > end {
        return Line::new("level: refused 7", command, Effect::Nothing);
    }
    if end > last {
        return Line::new("level: refused 9", command, Effect::Nothing);
    }
    let new = Slot { set: old.set.level(first, end), ..*old };
    Line::new(format!("level: ok {}", old.form.name()), command, Effect::Put(slot, new))
}
