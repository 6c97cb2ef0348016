//! What opening answers, of lawful indexes, damaged ones and of what is none at all.
mod common;

use bays::calls;
use bays::{Index, Told};
use common::{Random, Stored};

fn compare(stored: &Stored) -> bool {
    let wanted = stored.opened(1).map(|_| ());
    assert_eq!(calls::open(stored.record()), wanted, "{stored:?}");
    let index = Index::open(stored.told, stored.bytes.clone(), stored.numbers.clone());
    assert_eq!(index.map(|_| ()), wanted, "{stored:?}");
    wanted.is_ok()
}

#[test]
fn lawful_indexes_are_opened() {
    let mut random = Random(1);
    for _ in 0..3_000 {
        let last = random.last();
        let set = random.set(last);
        let choice = random.choice();
        assert!(compare(&Stored::filled(&set, choice, &mut random)));
    }
}

#[test]
fn large_indexes_are_opened() {
    let mut random = Random(2);
    for _ in 0..60 {
        let last = random.between(60_000, 65_535);
        let set = random.set(last);
        let choice = random.choice();
        let stored = Stored::filled(&set, choice, &mut random);
        assert!(compare(&stored));
        compare(&stored.damaged(&mut random));
    }
}

#[test]
fn damaged_indexes_are_refused_for_the_same_reason() {
    let mut random = Random(3);
    let mut opened = 0;
    for _ in 0..60_000 {
        let last = random.last();
        let set = random.set(last);
        let choice = random.choice();
        let stored = Stored::filled(&set, choice, &mut random);
        opened += u32::from(compare(&stored.damaged(&mut random)));
    }
    assert!(opened < 45_000, "{opened} of the damaged ones are lawful");
}

#[test]
fn whatever_it_is_the_verdicts_agree() {
    let mut random = Random(4);
    for _ in 0..60_000 {
        let length = random.below(6) as usize;
        let stored = Stored {
            told: Told {
                form: random.below(5) as u32,
                last: random.below(20) as u32,
                number: random.below(10) as u32,
                first: random.below(4) as usize,
                second: random.below(4) as usize,
                third: random.below(4) as usize,
            },
            bytes: random.bytes(length),
            numbers: (0..length).map(|_| random.below(20) as u16).collect(),
        };
        compare(&stored);
    }
}

#[test]
fn what_lies_behind_the_parts_is_cut_off() {
    let told = Told {
        form: 0,
        last: 16,
        number: 9,
        first: 2,
        second: 5,
        third: 7,
    };
    let index = Index::open(told, vec![135, 7, 9, 9, 9], vec![1]);
    assert_eq!(index, Index::of_bits(16, &[135, 7]));
}
