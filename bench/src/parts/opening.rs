// Opening an index of each form.
use crate::clock::{Pace, Racer, race};
use crate::form::Form;
use crate::garage::Garage;
use crate::kind::Kind;
use crate::parts::print_by_kind;
use crate::results::{By, Results, Work};
use crate::{ours, plain_rust};
use std::hint::black_box;

/// Measures the openings in a garage.
pub fn measure(garage: &Garage, forms: &[Form], pace: Pace, results: &mut Results) {
    let mut by = Vec::new();
    let mut racers = Vec::new();
    for form in forms {
        let stored = garage.free.stored(*form);
        by.extend([By::Ours(*form), By::PlainRust(*form)]);
        racers.push(Racer::new(1, move || {
            black_box(ours::open(black_box(stored)));
        }));
        racers.push(Racer::new(1, move || {
            black_box(plain_rust::open(black_box(stored)));
        }));
    }
    for (by, time) in by.into_iter().zip(race(&mut racers, pace)) {
        results.put(Work::Open, garage.kind.name, by, time);
    }
}

/// Prints the tables.
pub fn print(kinds: &[Kind], forms: &[Form], results: &Results) {
    println!("### Opening\n");
    println!("Times are of one opening: ours / plain Rust. Ratios are of ours to plain Rust.\n");
    print_by_kind(results, Work::Open, kinds, forms, &[]);
}
