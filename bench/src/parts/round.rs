// A round's calls: a sheet of all common bays, the free bays nearest to the posts, and the counts of the levels.
use crate::clock::{Pace, Racer, race};
use crate::foreign::{Foreign, LIBRARIES, Library};
use crate::form::Form;
use crate::garage::{Garage, MOST_NUMBERS};
use crate::kind::Kind;
use crate::parts::{both, names, print_by_kind};
use crate::results::{By, Results, Work};
use crate::table::{self, Table};
use crate::told::{Fault, Stored};
use crate::{ours, plain_rust};
use std::hint::black_box;

/// The posts of the sixteen signs.
pub const POSTS: [u32; 16] = [1, 24, 49, 61, 97, 122, 148, 160, 203, 231, 256, 277, 310, 344, 371, 402];

/// The first and the last bays of twelve levels.
pub fn levels(last: u32) -> (Vec<u32>, Vec<u32>) {
    (0..12).map(|level| (last * level / 12 + 1, last * (level + 1) / 12)).unzip()
}

fn put_all(work: Work, garage: &Garage, by: Vec<By>, mut racers: Vec<Racer>, pace: Pace, results: &mut Results) {
    for (by, time) in by.into_iter().zip(race(&mut racers, pace)) {
        results.put(work, garage.kind.name, by, time);
    }
}

/// Measures the sheets in a garage.
pub fn measure_sheet(garage: &Garage, forms: &[Form], pace: Pace, results: &mut Results) {
    let mut by = Vec::new();
    let mut racers = Vec::new();
    for form in forms {
        let (free, class) = (garage.free.stored(*form), garage.class.stored(*form));
        for (name, sheet) in
            [(By::Ours(*form), ours::sheet as fn(Stored, Stored, u32, &mut [u32]) -> _), (By::PlainRust(*form), plain_rust::sheet)]
        {
            let mut out = vec![0; garage.kind.last as usize];
            by.push(name);
            racers.push(Racer::new(1, move || {
                let _ = black_box(sheet(black_box(free), class, 1, &mut out));
            }));
        }
    }
    let [free, class] = [&garage.free, &garage.class].map(|set| set.foreign(Library::Roaring));
    let mut out = vec![0; MOST_NUMBERS];
    by.push(By::Library(Library::Roaring));
    racers.push(Racer::new(1, move || {
        black_box(Foreign::list(black_box(free), class, &mut out));
    }));
    put_all(Work::Sheet, garage, by, racers, pace, results);
}

type Nearest = fn(Stored, Stored, &[u32], &mut [u32]) -> Result<(), Fault>;

/// Measures the nearest free bays at the posts.
pub fn measure_nearest(garage: &Garage, forms: &[Form], pace: Pace, results: &mut Results) {
    let mut by = Vec::new();
    let mut racers = Vec::new();
    for form in forms {
        let (free, class) = (garage.free.stored(*form), garage.class.stored(*form));
        for (name, nearest) in [(By::Ours(*form), ours::nearest as Nearest), (By::PlainRust(*form), plain_rust::nearest)] {
            let mut out = [0; POSTS.len()];
            by.push(name);
            racers.push(Racer::new(1, move || {
                let _ = black_box(nearest(free, class, black_box(&POSTS), black_box(&mut out)));
            }));
        }
    }
    for library in LIBRARIES {
        let (set, mut out) = (garage.free.foreign(library), [0; POSTS.len()]);
        by.push(By::Library(library));
        racers.push(Racer::new(1, move || set.nearest(black_box(&POSTS), black_box(&mut out))));
    }
    put_all(Work::Nearest, garage, by, racers, pace, results);
}

type Count = fn(Stored, Stored, &[u32], &[u32], &mut [u32]) -> Result<(), Fault>;

/// Measures the counts of the levels.
pub fn measure_count(garage: &Garage, forms: &[Form], pace: Pace, results: &mut Results) {
    let (firsts, lasts) = &levels(garage.kind.last);
    let mut by = Vec::new();
    let mut racers = Vec::new();
    for form in forms {
        let (free, class) = (garage.free.stored(*form), garage.class.stored(*form));
        for (name, count) in [(By::Ours(*form), ours::count as Count), (By::PlainRust(*form), plain_rust::count)] {
            let mut out = vec![0; firsts.len()];
            by.push(name);
            racers.push(Racer::new(1, move || {
                let _ = black_box(count(free, class, black_box(firsts), lasts, black_box(&mut out)));
            }));
        }
    }
    for library in LIBRARIES {
        let (set, mut out) = (garage.free.foreign(library), vec![0; firsts.len()]);
        by.push(By::Library(library));
        racers.push(Racer::new(1, move || set.count(black_box(firsts), lasts, black_box(&mut out))));
    }
    put_all(Work::Count, garage, by, racers, pace, results);
}

/// Prints the tables of the sheets.
pub fn print_sheet(kinds: &[Kind], forms: &[Form], results: &Results) {
    println!("### All common bays by one sheet\n");
    println!(
        "Times are of one call, which opens both indexes, lists the common bays and counts the stretches: ours / plain Rust. CRoaring takes \
         two bitmaps, makes the one of the common bays and an array of it, and counts no stretches. Ratios are of ours to plain Rust, and \
         then to CRoaring.\n"
    );
    print_by_kind(results, Work::Sheet, kinds, forms, &[By::Library(Library::Roaring)]);
    let mut ratios = Table::new("ratio to CRoaring", names(kinds));
    for form in forms {
        let cell = |kind: &Kind| results.to_libraries(Work::Sheet, kind.name, *form, &[Library::Roaring]);
        ratios.row(form, kinds.iter().map(|kind| table::ratio(cell(kind))));
    }
    ratios.print();
}

fn print_question(results: &Results, work: Work, kinds: &[Kind], forms: &[Form]) {
    let mut times = Table::new("ns", names(kinds));
    for form in forms {
        times.row(form, kinds.iter().map(|kind| both(results, work, kind.name, *form)));
    }
    for library in LIBRARIES {
        times.row(library, kinds.iter().map(|kind| table::time(results.time(work, kind.name, By::Library(library)))));
    }
    times.print();
}

/// Prints the table of the nearest free bays.
pub fn print_nearest(kinds: &[Kind], forms: &[Form], results: &Results) {
    println!("### The nearest free bay at the sixteen posts\n");
    println!("Times are of one call for all posts, which opens both indexes: ours / plain Rust. The libraries' sets are open already.\n");
    print_question(results, Work::Nearest, kinds, forms);
}

/// Prints the table of the counts.
pub fn print_count(kinds: &[Kind], forms: &[Form], results: &Results) {
    println!("### The free bays on each of twelve levels\n");
    println!("Times are of one call for all levels, which opens both indexes: ours / plain Rust. The libraries' sets are open already.\n");
    print_question(results, Work::Count, kinds, forms);
}
