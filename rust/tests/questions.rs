//! Every question, of both sorts, at random places and at the edges, in every form.
mod common;

use bays::calls;
use bays::{Fault, Index, Question, Sort};
use common::{Random, Stored};
use reference::forms::Choice;
use reference::sets;

const QUESTIONS: [Question; 5] = [
    Question::Holds,
    Question::Next,
    Question::Previous,
    Question::Rank,
    Question::Select,
];
const SORTS: [(Sort, sets::Sort); 2] = [
    (Sort::Members, sets::Sort::Members),
    (Sort::Others, sets::Sort::Others),
];

fn answer(set: &[bool], question: Question, sort: sets::Sort, place: u32) -> u32 {
    let place = u64::from(place);
    let answer = match question {
        Question::Holds => u64::from(sets::holds(set, place)),
        Question::Next => sets::next(set, sort, place).unwrap_or(0),
        Question::Previous => sets::previous(set, sort, place).unwrap_or(0),
        Question::Rank => sets::rank(set, sort, place),
        Question::Select => sets::select(set, sort, place).unwrap_or(0),
    };
    answer as u32
}

fn compare(set: &[bool], stored: &Stored, places: &[u32], random: &mut Random) {
    for question in QUESTIONS {
        for (sort, as_reference) in SORTS {
            let wanted: Vec<u32> = places
                .iter()
                .map(|place| answer(set, question, as_reference, *place))
                .collect();
            let room = (places.len() as u64 + random.below(5)).saturating_sub(2) as usize;
            let before = random.words(room);
            let mut answers = before.clone();
            let asked = calls::ask(
                stored.record(),
                question as u32,
                sort as u32,
                places,
                &mut answers,
            );
            assert_eq!(asked, Ok(()));
            let front = room.min(places.len());
            assert_eq!(
                answers[..front],
                wanted[..front],
                "{question:?} {sort:?} of {stored:?} at {places:?}"
            );
            assert_eq!(answers[front..], before[front..]);
        }
    }
}

#[test]
fn small_sets_answer_alike() {
    let mut random = Random(11);
    for _ in 0..1_500 {
        let last = random.last();
        let set = random.set(last);
        let choice = random.choice();
        let stored = Stored::filled(&set, choice, &mut random);
        let places: Vec<u32> = (0..random.below(20)).map(|_| random.place(last)).collect();
        compare(&set, &stored, &places, &mut random);
    }
}

#[test]
fn small_sets_answer_alike_at_every_place() {
    let mut random = Random(12);
    for last in 1..=70 {
        let set = random.set(last);
        let places: Vec<u32> = (0..last as u32 + 3).chain([u32::MAX]).collect();
        for choice in [
            Choice::Plain,
            Choice::List,
            Choice::Zombit { size: 2 },
            Choice::Zombit { size: 5 },
            Choice::Zombit { size: 64 },
            Choice::Pioneer,
        ] {
            let stored = Stored::filled(&set, choice, &mut random);
            compare(&set, &stored, &places, &mut random);
        }
    }
}

#[test]
fn large_sets_answer_alike() {
    let mut random = Random(13);
    for _ in 0..30 {
        let last = random.between(60_000, 65_535);
        let set = random.set(last);
        let choice = random.choice();
        let stored = Stored::filled(&set, choice, &mut random);
        let places: Vec<u32> = (0..10).map(|_| random.place(last)).collect();
        compare(&set, &stored, &places, &mut random);
    }
}

#[test]
fn a_refusal_changes_no_answer() {
    let mut random = Random(14);
    let mut refused = 0;
    for _ in 0..5_000 {
        let last = random.last();
        let set = random.set(last);
        let choice = random.choice();
        let stored = Stored::filled(&set, choice, &mut random).damaged(&mut random);
        let question = random.below(7) as u32;
        let sort = random.below(3) as u32;
        let wanted = if stored.told.form > 3 {
            stored.opened(1).map(|_| ())
        } else if question > 4 {
            Err(Fault {
                number: 13,
                part: 0,
                index: 0,
            })
        } else if sort > 1 {
            Err(Fault {
                number: 14,
                part: 0,
                index: 0,
            })
        } else {
            stored.opened(1).map(|_| ())
        };
        let places = random.words(5);
        let before = random.words(6);
        let mut answers = before.clone();
        let asked = calls::ask(stored.record(), question, sort, &places, &mut answers);
        assert_eq!(asked, wanted, "{stored:?}");
        if wanted.is_err() {
            assert_eq!(answers, before);
            refused += 1;
        }
    }
    assert!(refused > 2_000, "only {refused} were refused");
}

#[test]
fn members_are_the_set() {
    let mut random = Random(15);
    for _ in 0..300 {
        let last = random.last();
        let set = random.set(last);
        let members: Vec<u16> = (1..=last as u16)
            .filter(|bay| set[*bay as usize - 1])
            .collect();
        let index = Index::of_members(last as u32, &members).expect("they rise");
        assert_eq!(
            index.members(),
            members
                .iter()
                .map(|bay| u32::from(*bay))
                .collect::<Vec<_>>()
        );
    }
    assert_eq!(
        Index::of_members(9, &[3, 3]).map(|_| ()),
        Err(Fault {
            number: 3,
            part: 1,
            index: 1
        })
    );
    assert_eq!(
        Index::of_bits(9, &[3, 3]).map(|_| ()),
        Err(Fault {
            number: 3,
            part: 1,
            index: 1
        })
    );
}
