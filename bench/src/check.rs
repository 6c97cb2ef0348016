// Before anything is timed: all answers agree, of the library, of the plain Rust version, of the libraries beside, and of the naive answers.
use crate::foreign::{Foreign, LIBRARIES};
use crate::form::{Form, QUESTIONS, Sort};
use crate::garage::{Garage, MOST_BYTES, MOST_NUMBERS, Set};
use crate::naive;
use crate::random::Random;
use crate::told::{Fault, Report, Stored};
use crate::{ours, plain_rust};
use std::fmt::Debug;

/// What is compared: how many answers so far.
#[derive(Default)]
pub struct Compared {
    pub answers: usize,
}

impl Compared {
    // Ends the run where two answers differ.
    fn same<T: PartialEq + Debug>(&mut self, what: impl FnOnce() -> String, wanted: T, got: T) {
        self.answers += 1;
        if wanted != got {
            eprintln!("bench: {}: {got:?}, and not {wanted:?}", what());
            std::process::exit(1);
        }
    }
}

const PLACES: usize = 3_000;

// Places at the edges, and random ones.
fn places_of(last: u32, random: &mut Random) -> Vec<u32> {
    let edges = [0, 1, 2, 63, 64, 65, last - 1, last, last + 1, last + 64, 1 << 20, u32::MAX];
    edges.into_iter().chain(random.many_upto(last + 2, PLACES)).collect()
}

fn check_questions(garage: &Garage, form: Form, set: &Set, compared: &mut Compared) {
    let places = places_of(garage.kind.last, &mut Random(3));
    for (question, sort) in QUESTIONS.iter().flat_map(|question| [(*question, Sort::Members), (*question, Sort::Others)]) {
        let (mut of_ours, mut of_plain) = (vec![7; places.len()], vec![7; places.len()]);
        let faults = [
            ours::ask(set.stored(form), question, sort, &places, &mut of_ours),
            plain_rust::ask(set.stored(form), question, sort, &places, &mut of_plain),
        ];
        let name = |by: &str| format!("{}, {form}, {question} of {sort:?}, {by}", garage.kind.name);
        compared.same(|| name("faults"), [Fault::default(); 2], faults);
        for ((place, of_ours), of_plain) in places.iter().zip(of_ours).zip(of_plain) {
            let wanted = set.naive.answer(question, sort, *place);
            compared.same(|| name(&format!("plain Rust at {place}")), wanted, of_plain);
            compared.same(|| name(&format!("ours at {place}")), wanted, of_ours);
        }
    }
}

fn check_libraries(garage: &Garage, compared: &mut Compared) {
    let set = &garage.free;
    let places = Random(4).many_upto(garage.kind.last, PLACES);
    for (library, question) in LIBRARIES.iter().flat_map(|library| QUESTIONS.map(|question| (library, question))) {
        let mut answers = vec![7; places.len()];
        set.foreign(*library).ask(question, &places, &mut answers);
        for (place, answer) in places.iter().zip(answers) {
            let wanted = set.naive.answer(question, Sort::Members, *place);
            compared.same(|| format!("{}, {library}, {question} at {place}", garage.kind.name), wanted, answer);
        }
    }
}

fn check_fills(garage: &Garage, from: Form, to: Form, compared: &mut Compared) {
    let name = |by: &str| format!("{}, {from} filled as {to}, {by}", garage.kind.name);
    let stored = garage.free.stored(from);
    let wanted = garage.free.made(to);
    let fresh = || (vec![0xA5_u8; MOST_BYTES], vec![0xA5A5_u16; MOST_NUMBERS]);
    let (mut bytes, mut numbers) = fresh();
    bytes[..wanted.bytes.len()].copy_from_slice(&wanted.bytes);
    numbers[..wanted.numbers.len()].copy_from_slice(&wanted.numbers);
    for (by, fill) in [("ours", ours::fill as fn(Stored, Form, &mut [u8], &mut [u16]) -> _), ("plain Rust", plain_rust::fill)] {
        let (mut of_bytes, mut of_numbers) = fresh();
        let told = fill(stored, to, &mut of_bytes, &mut of_numbers);
        compared.same(|| name(by), Ok(wanted.told), told);
        compared.same(|| name(by), true, of_bytes == bytes && of_numbers == numbers);
    }
    compared.same(|| name("ours, measured"), Ok(wanted.told), ours::measure(stored, to));
    compared.same(|| name("plain Rust, measured"), Ok(wanted.told), plain_rust::measure(stored, to));
}

// Damages an index at random: a bit of its memory, or one of its numbers or lengths.
fn check_openings(garage: &Garage, form: Form, compared: &mut Compared) {
    let made = garage.free.made(form);
    let mut random = Random(5);
    for round in 0..300 {
        let (mut told, mut bytes, mut numbers) = (made.told, made.bytes.clone(), made.numbers.clone());
        let amount = random.upto(3);
        match random.upto(6) {
            _ if round == 0 => {}
            1 => told.last = told.last.wrapping_sub(amount),
            2 => told.number = told.number.wrapping_add(amount),
            3 => told.first -= told.first.min(amount as usize),
            4 => told.third -= told.third.min(amount as usize),
            5 if !numbers.is_empty() => numbers[random.upto(made.numbers.len() as u32) as usize - 1] ^= 1 << random.upto(8),
            _ if !bytes.is_empty() => bytes[random.upto(made.bytes.len() as u32) as usize - 1] ^= 1 << (random.upto(8) - 1),
            _ => told.last = 0,
        }
        let stored = Stored { told, bytes: &bytes, numbers: &numbers };
        let name = || format!("{}, {form}, opening with {told:?}", garage.kind.name);
        compared.same(name, plain_rust::open(stored), ours::open(stored));
    }
}

fn check_sheets(garage: &Garage, form: Form, compared: &mut Compared) {
    let last = garage.kind.last;
    let (free, class) = (garage.free.stored(form), garage.class.stored(form));
    for (place, room) in [(1, last as usize), (1, 0), (last + 1, 5), (1, 1), (last / 3, 100), (last / 2, 40_000), (last, 3)] {
        let (bays, report) = naive::sheet(&garage.free.naive, &garage.class.naive, place, room);
        let mut wanted = vec![7; room];
        wanted[..bays.len()].copy_from_slice(&bays);
        let name = |by: &str| format!("{}, {form}, a sheet from {place} of {room} by {by}", garage.kind.name);
        for (by, sheet) in [("ours", ours::sheet as fn(Stored, Stored, u32, &mut [u32]) -> _), ("plain Rust", plain_rust::sheet)] {
            let mut out = vec![7; room];
            compared.same(|| name(by), Ok(report), sheet(free, class, place, &mut out));
            compared.same(|| name(by), true, out == wanted);
        }
    }
    for place in [0, last + 2] {
        let name = || format!("{}, {form}, a sheet from {place}", garage.kind.name);
        let refused = plain_rust::sheet(free, class, place, &mut [0]);
        compared.same(name, refused, ours::sheet(free, class, place, &mut [0]));
    }
}

fn check_library_sheet(garage: &Garage, compared: &mut Compared) {
    let last = garage.kind.last as usize;
    let (bays, _): (_, Report) = naive::sheet(&garage.free.naive, &garage.class.naive, 1, last);
    let mut out = vec![7; MOST_NUMBERS];
    let [free, class] = [&garage.free, &garage.class].map(|set| set.foreign(crate::foreign::Library::Roaring));
    let n = Foreign::list(free, class, &mut out);
    compared.same(|| format!("{}, CRoaring, common bays", garage.kind.name), bays.as_slice(), &out[..n]);
}

fn check_round_questions(garage: &Garage, form: Form, compared: &mut Compared) {
    let (free, class) = (garage.free.stored(form), garage.class.stored(form));
    let name = |what: &str| format!("{}, {form}, {what}", garage.kind.name);
    let posts = crate::parts::round::POSTS;
    let (firsts, lasts) = crate::parts::round::levels(garage.kind.last);
    let nearest: Vec<u32> = posts.iter().map(|post| garage.free.naive.nearest(*post)).collect();
    let counts: Vec<u32> = firsts.iter().zip(&lasts).map(|(a, b)| garage.free.naive.count(*a, *b)).collect();
    let (mut near, mut counted) = (vec![7; posts.len()], vec![7; firsts.len()]);
    compared.same(|| name("nearest"), Ok(()), ours::nearest(free, class, &posts, &mut near));
    compared.same(|| name("nearest, ours"), &nearest, &near);
    compared.same(|| name("nearest"), Ok(()), plain_rust::nearest(free, class, &posts, &mut near));
    compared.same(|| name("nearest, plain Rust"), &nearest, &near);
    compared.same(|| name("count"), Ok(()), ours::count(free, class, &firsts, &lasts, &mut counted));
    compared.same(|| name("count, ours"), &counts, &counted);
    compared.same(|| name("count"), Ok(()), plain_rust::count(free, class, &firsts, &lasts, &mut counted));
    compared.same(|| name("count, plain Rust"), &counts, &counted);
    for library in LIBRARIES {
        garage.free.foreign(library).nearest(&posts, &mut near);
        compared.same(|| name(&format!("nearest, {library}")), &nearest, &near);
        garage.free.foreign(library).count(&firsts, &lasts, &mut counted);
        compared.same(|| name(&format!("count, {library}")), &counts, &counted);
    }
}

/// Compares all answers in a garage; the run ends where two differ.
pub fn check(garage: &Garage, forms: &[Form], compared: &mut Compared) {
    check_libraries(garage, compared);
    check_library_sheet(garage, compared);
    for form in forms {
        check_openings(garage, *form, compared);
        for set in [&garage.free, &garage.class] {
            check_questions(garage, *form, set, compared);
        }
        for to in forms {
            check_fills(garage, *form, *to, compared);
        }
        check_sheets(garage, *form, compared);
        check_round_questions(garage, *form, compared);
    }
}
