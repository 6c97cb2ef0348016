// Filling every form into every form.
use crate::clock::{Pace, Racer, race};
use crate::foreign::{Foreign, Library};
use crate::form::Form;
use crate::garage::{Garage, MOST_BYTES, MOST_NUMBERS};
use crate::kind::Kind;
use crate::parts::{both, names};
use crate::results::{By, Results, Work};
use crate::table::{self, Table};
use crate::told::Stored;
use crate::{ours, plain_rust};
use std::hint::black_box;

// A fill into memories of its own.
fn racer<'a, T>(stored: Stored<'a>, to: Form, fill: impl Fn(Stored, Form, &mut [u8], &mut [u16]) -> T + 'a) -> Racer<'a> {
    let (mut bytes, mut numbers) = (vec![0; MOST_BYTES], vec![0; MOST_NUMBERS]);
    Racer::new(1, move || drop(black_box(fill(black_box(stored), to, &mut bytes, &mut numbers))))
}

/// Measures the fills of an index of one form into others.
pub fn measure(garage: &Garage, from: Form, forms: &[Form], pace: Pace, results: &mut Results) {
    let stored = garage.free.stored(from);
    let mut by = Vec::new();
    let mut racers = Vec::new();
    for to in forms {
        by.extend([By::Ours(*to), By::PlainRust(*to)]);
        racers.push(racer(stored, *to, ours::fill));
        racers.push(racer(stored, *to, plain_rust::fill));
    }
    for (by, time) in by.into_iter().zip(race(&mut racers, pace)) {
        results.put(Work::FillFrom(from), garage.kind.name, by, time);
    }
}

/// Measures what CRoaring takes to make a bitmap of the members.
pub fn measure_making(garage: &Garage, pace: Pace, results: &mut Results) {
    let (last, members) = (garage.kind.last, &garage.free.naive.members);
    let make = move || drop(black_box(Foreign::new(Library::Roaring, last, black_box(members))));
    let time = race(&mut [Racer::new(1, make)], pace)[0];
    results.put(Work::FillFrom(Form::List), garage.kind.name, By::Library(Library::Roaring), time);
}

// The fills from and into plain.
fn print_plain(kinds: &[Kind], forms: &[Form], results: &Results) {
    let into = forms.iter().map(|form| (Form::Plain, *form));
    let from = forms.iter().filter(|form| **form != Form::Plain).map(|form| (*form, Form::Plain));
    let mut times = Table::new("ns", names(kinds));
    let mut ratios = Table::new("ratio", names(kinds));
    for (from, to) in into.chain(from) {
        let (work, name) = (Work::FillFrom(from), format!("{from} into {to}"));
        times.row(&name, kinds.iter().map(|kind| both(results, work, kind.name, to)));
        ratios.row(&name, kinds.iter().map(|kind| table::ratio(results.to_plain_rust(work, kind.name, to))));
    }
    let making = |kind: &Kind| results.time(Work::FillFrom(Form::List), kind.name, By::Library(Library::Roaring));
    times.row("CRoaring, of an array", kinds.iter().map(|kind| table::time(making(kind))));
    times.print();
    ratios.print();
}

fn print_pairs(kind: &Kind, forms: &[Form], results: &Results) {
    let mut ratios = Table::new("from, into", forms.iter().map(|form| form.to_string()));
    let mut times = Table::new("from, into", forms.iter().map(|form| form.to_string()));
    for from in forms {
        let work = Work::FillFrom(*from);
        times.row(from, forms.iter().map(|to| both(results, work, kind.name, *to)));
        ratios.row(from, forms.iter().map(|to| table::ratio(results.to_plain_rust(work, kind.name, *to))));
    }
    if !times.is_empty() {
        println!("**{}**\n", kind.name);
        times.print();
        ratios.print();
    }
}

/// Prints the tables.
pub fn print(kinds: &[Kind], forms: &[Form], results: &Results) {
    println!("### Fills\n");
    println!("Times are of one fill, that is opening, measuring and filling: ours / plain Rust. Ratios are of ours to plain Rust.\n");
    print_plain(kinds, forms, results);
    println!("Every form into every form:\n");
    kinds.iter().for_each(|kind| print_pairs(kind, forms, results));
}
