//! Writes a set as a lawful index of each form.

use crate::bits;
use crate::index::{Form, Index, Part};
use crate::sets::Set;

/// The index of the set in the form. The size counts for zombit alone.
pub fn encode(set: &Set, form: Form, size: u64) -> Index {
    match form {
        Form::Plain => plain(set),
        Form::List => list(set),
        Form::Zombit => zombit(set, size),
        Form::Pioneer => pioneer(set),
    }
}

fn plain(set: &Set) -> Index {
    let row: Vec<bool> = (1..=set.last()).map(|bay| set.holds(bay)).collect();
    Index { form: Form::Plain, last: set.last(), second: 0, parts: vec![Part::Bytes(bits::pack(&row))] }
}

fn list(set: &Set) -> Index {
    Index { form: Form::List, last: set.last(), second: 0, parts: vec![Part::Numbers(set.bays())] }
}

fn zombit(set: &Set, size: u64) -> Index {
    let blocks = set.last().div_ceil(size);
    let mut uniform = Vec::new();
    let mut marked = Vec::new();
    let mut mixed = Vec::new();
    for block in 0..blocks {
        // Beyond the last bay `holds` says no, as a short block is read.
        let row: Vec<bool> = (1..=size).map(|place| set.holds(block * size + place)).collect();
        let any = row.iter().any(|member| *member);
        let all = row.iter().all(|member| *member);
        uniform.push(all || !any);
        marked.push(any);
        if any && !all {
            mixed.extend(row);
        }
    }
    let parts = [uniform, marked, mixed].iter().map(|row| Part::Bytes(bits::pack(row))).collect();
    Index { form: Form::Zombit, last: set.last(), second: size, parts }
}

fn pioneer(set: &Set) -> Index {
    let starts: Vec<bool> = (1..=set.last()).map(|bay| set.holds(bay) && !set.holds(bay - 1)).collect();
    let sums: Vec<bool> = set.bays().iter().map(|bay| !set.holds(bay + 1)).collect();
    let second = sums.len() as u64;
    let parts = vec![Part::Bytes(bits::pack(&starts)), Part::Bytes(bits::pack(&sums))];
    Index { form: Form::Pioneer, last: set.last(), second, parts }
}
