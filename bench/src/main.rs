// Measures the library through its C interface, beside a plain Rust version of the same layouts, sdsl-lite and CRoaring.
mod check;
mod choice;
mod clock;
mod foreign;
mod form;
mod garage;
mod goals;
mod kind;
mod naive;
mod ours;
mod parts;
#[forbid(unsafe_code)]
mod plain_rust;
mod random;
mod results;
mod table;
mod told;

use choice::{Choice, Part};
use form::Sort;
use garage::Garage;
use parts::{fills, growth, opening, questions, round};
use results::Results;

fn measure_questions(choice: &Choice, garage: &Garage, results: &mut Results) {
    let forms = choice.main_forms();
    for (part, sort) in [(Part::Members, Sort::Members), (Part::Others, Sort::Others)] {
        if choice.has(part) {
            for question in &choice.questions {
                questions::measure(garage, &forms, *question, sort, choice.pace, results);
            }
        }
    }
}

fn measure_fills(choice: &Choice, garage: &Garage, results: &mut Results) {
    if choice.has(Part::Fills) {
        for from in &choice.forms {
            fills::measure(garage, *from, &choice.forms, choice.pace, results);
        }
        fills::measure_making(garage, choice.pace, results);
    }
}

fn measure_rounds(choice: &Choice, garage: &Garage, results: &mut Results) {
    let (forms, pace) = (choice.main_forms(), choice.pace);
    if choice.has(Part::Sheet) {
        round::measure_sheet(garage, &forms, pace, results);
    }
    if choice.has(Part::Nearest) {
        round::measure_nearest(garage, &forms, pace, results);
    }
    if choice.has(Part::Count) {
        round::measure_count(garage, &forms, pace, results);
    }
}

fn measure(choice: &Choice, garages: &[Garage]) -> Results {
    let mut results = Results::default();
    for garage in garages {
        measure_questions(choice, garage, &mut results);
        if choice.has(Part::Opening) {
            opening::measure(garage, &choice.forms, choice.pace, &mut results);
        }
        measure_fills(choice, garage, &mut results);
        measure_rounds(choice, garage, &mut results);
    }
    if choice.has(Part::Growth) {
        growth::measure(&choice.forms, choice.pace, &mut results);
    }
    results
}

fn print(choice: &Choice, results: &Results) {
    let (kinds, forms) = (&choice.kinds, &choice.main_forms());
    goals::print(kinds, forms, &choice.forms, results);
    println!();
    for part in &choice.parts {
        match part {
            Part::Members => questions::print(kinds, forms, Sort::Members, results),
            Part::Others => questions::print(kinds, forms, Sort::Others, results),
            Part::Opening => opening::print(kinds, &choice.forms, results),
            Part::Fills => fills::print(kinds, &choice.forms, results),
            Part::Growth => growth::print(&choice.forms, results),
            Part::Sheet => round::print_sheet(kinds, forms, results),
            Part::Nearest => round::print_nearest(kinds, forms, results),
            Part::Count => round::print_count(kinds, forms, results),
        }
    }
}

fn main() {
    let words: Vec<String> = std::env::args().skip(1).collect();
    let choice = Choice::of(&words).unwrap_or_else(|word| {
        eprintln!("bench: {word} is no part, form, kind or question");
        std::process::exit(2);
    });
    let garages: Vec<Garage> = choice.kinds.iter().map(|kind| Garage::new(*kind)).collect();
    let mut compared = check::Compared::default();
    for garage in &garages {
        check::check(garage, &choice.forms, &mut compared);
    }
    println!("All {} answers that were compared before the timing agree.\n", compared.answers);
    let results = measure(&choice, &garages);
    print(&choice, &results);
}
