// The five questions, at many random places in one call.
use crate::clock::{self, Pace, Racer, race};
use crate::foreign::{LIBRARIES, Library};
use crate::form::{Form, QUESTIONS, Question, Sort};
use crate::garage::Garage;
use crate::kind::Kind;
use crate::parts::both;
use crate::random::Random;
use crate::results::{By, Results, Work};
use crate::table::{self, Table};
use crate::{ours, plain_rust};
use std::cell::RefCell;
use std::hint::black_box;

// A call asks at most so many places, and at least so many.
const MOST: usize = 100_000;
const FEWEST: usize = 2_000;

// A call that asks so many of the places that it takes a sample's time.
fn racer<'a>(call: impl Fn(&[u32], &mut [u32]) + 'a, places: &'a [u32], answers: &'a RefCell<Vec<u32>>, pace: Pace) -> Racer<'a> {
    let few = &places[..FEWEST / 2];
    let time = clock::once(|| call(few, &mut answers.borrow_mut()[..few.len()])) / few.len() as f64;
    let n = ((pace.sample / time) as usize).clamp(FEWEST, MOST);
    let places = &places[..n];
    Racer::new(n, move || call(black_box(places), black_box(&mut answers.borrow_mut()[..n])))
}

// The random places: bays, or numbers up to that of the bays of the sort.
fn places_of(garage: &Garage, question: Question, sort: Sort) -> Vec<u32> {
    let members = garage.free.naive.members.len() as u32;
    let most = match (question, sort) {
        (Question::Select, Sort::Members) => members,
        (Question::Select, Sort::Others) => garage.kind.last - members,
        _ => garage.kind.last,
    };
    Random(6).many_upto(if most == 0 { garage.kind.last } else { most }, MOST)
}

/// Measures a question about a sort in a garage.
pub fn measure(garage: &Garage, forms: &[Form], question: Question, sort: Sort, pace: Pace, results: &mut Results) {
    let places = places_of(garage, question, sort);
    let answers = RefCell::new(vec![0; MOST]);
    let mut by = Vec::new();
    let mut racers = Vec::new();
    for form in forms {
        let stored = garage.free.stored(*form);
        let of_ours = move |places: &[u32], answers: &mut [u32]| {
            ours::ask(stored, question, sort, places, answers);
        };
        let of_plain = move |places: &[u32], answers: &mut [u32]| {
            plain_rust::ask(stored, question, sort, places, answers);
        };
        by.extend([By::Ours(*form), By::PlainRust(*form)]);
        racers.push(racer(of_ours, &places, &answers, pace));
        racers.push(racer(of_plain, &places, &answers, pace));
    }
    for library in LIBRARIES.iter().filter(|_| sort == Sort::Members) {
        let set = garage.free.foreign(*library);
        by.push(By::Library(*library));
        racers.push(racer(move |places, answers| set.ask(question, places, answers), &places, &answers, pace));
    }
    for (by, time) in by.into_iter().zip(race(&mut racers, pace)) {
        results.put(Work::Ask(question, sort), garage.kind.name, by, time);
    }
}

const SDSL: [Library; 2] = [Library::BitVector, Library::SdVector];

// Our time by that of plain Rust, of sdsl and of CRoaring.
fn ratios(results: &Results, work: Work, kind: &'static str, form: Form) -> String {
    table::together(
        [
            results.to_plain_rust(work, kind, form),
            results.to_libraries(work, kind, form, &SDSL),
            results.to_libraries(work, kind, form, &[Library::Roaring]),
        ]
        .map(table::ratio),
    )
}

fn print_kind(kind: &Kind, forms: &[Form], sort: Sort, results: &Results) {
    let names = || QUESTIONS.map(|question| question.to_string());
    let mut times = Table::new("ns", names());
    let mut by_ratio = Table::new("ratio", names());
    let work = |question: &Question| Work::Ask(*question, sort);
    for form in forms {
        times.row(form, QUESTIONS.iter().map(|question| both(results, work(question), kind.name, *form)));
        by_ratio.row(
            form,
            QUESTIONS.iter().map(|question| match sort {
                Sort::Members => ratios(results, work(question), kind.name, *form),
                Sort::Others => table::ratio(results.to_plain_rust(work(question), kind.name, *form)),
            }),
        );
    }
    for library in LIBRARIES {
        let by = By::Library(library);
        times.row(library, QUESTIONS.iter().map(|question| table::time(results.time(work(question), kind.name, by))));
    }
    if !times.is_empty() {
        println!("**{}**\n", kind.name);
        times.print();
        by_ratio.print();
    }
}

/// Prints the tables of a sort.
pub fn print(kinds: &[Kind], forms: &[Form], sort: Sort, results: &Results) {
    match sort {
        Sort::Members => {
            println!("### Questions about members\n");
            println!(
                "Times are of one answer: ours / plain Rust. Ratios are of ours to plain Rust / to the faster of sdsl's two / to CRoaring.\n"
            );
        }
        Sort::Others => {
            println!("### Questions about non-members\n");
            println!("Times are of one answer: ours / plain Rust. Ratios are of ours to plain Rust.\n");
        }
    }
    kinds.iter().for_each(|kind| print_kind(kind, forms, sort, results));
}
