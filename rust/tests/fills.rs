//! What measuring and filling tell and write, from every form into every form, and what they refuse.
mod common;

use bays::calls;
use bays::{Fault, Form, Index, Told};
use common::{form_of, Random, Stored};
use reference::forms::{self, Choice};

const CHOICES: [Choice; 9] = [
    Choice::Plain,
    Choice::List,
    Choice::Zombit { size: 2 },
    Choice::Zombit { size: 3 },
    Choice::Zombit { size: 8 },
    Choice::Zombit { size: 64 },
    Choice::Zombit { size: 100 },
    Choice::Zombit { size: 4_096 },
    Choice::Pioneer,
];

// A told that no call may leave as it is where it fills.
const OLD: Told = Told {
    form: 77,
    last: 78,
    number: 79,
    first: 80,
    second: 81,
    third: 82,
};

fn front_and_behind<T: Copy>(front: &[T], memory: &[T]) -> Vec<T> {
    [front, &memory[front.len()..]].concat()
}

// What the reference lays down, and what the library does with so much room and more.
fn compare(set: &[bool], from: &Stored, choice: Choice, random: &mut Random) {
    let wanted = Stored::of(&forms::fill(set, choice).expect("a lawful block size"));
    let form = form_of(choice);
    let mut told = OLD;
    assert_eq!(
        calls::measure(from.record(), form.number(), form.size(), &mut told),
        Ok(())
    );
    assert_eq!(told, wanted.told);
    let more = random.below(4) as usize;
    let bytes = random.bytes(wanted.bytes.len() + more);
    let numbers = random.numbers(wanted.numbers.len() + more);
    let (mut to_bytes, mut to_numbers, mut to) = (bytes.clone(), numbers.clone(), OLD);
    let filled = calls::fill(
        from.record(),
        form.number(),
        form.size(),
        &mut to,
        &mut to_bytes,
        &mut to_numbers,
    );
    assert_eq!(filled, Ok(()));
    assert_eq!(to, wanted.told);
    assert_eq!(
        to_bytes,
        front_and_behind(&wanted.bytes, &bytes),
        "{from:?} as {choice:?}"
    );
    assert_eq!(
        to_numbers,
        front_and_behind(&wanted.numbers, &numbers),
        "{from:?} as {choice:?}"
    );
}

#[test]
fn every_form_fills_every_form() {
    let mut random = Random(21);
    for _ in 0..60 {
        let last = random.last();
        let set = random.set(last);
        for from in CHOICES {
            let stored = Stored::filled(&set, from, &mut random);
            for to in CHOICES {
                compare(&set, &stored, to, &mut random);
            }
        }
    }
}

#[test]
fn large_sets_are_filled() {
    let mut random = Random(22);
    for _ in 0..12 {
        let last = random.between(60_000, 65_535);
        let set = random.set(last);
        let from = random.choice();
        let stored = Stored::filled(&set, from, &mut random);
        let to = random.choice();
        compare(&set, &stored, to, &mut random);
    }
}

// The first part for which a memory of so many has no room.
fn first_without_room(told: &Told, bytes: usize, numbers: usize) -> Option<u32> {
    let (parts, room) = match told.form {
        1 => (vec![told.first], numbers),
        _ => (vec![told.first, told.second, told.third], bytes),
    };
    let mut took = 0;
    for (part, length) in (1..).zip(parts) {
        took += length;
        if took > room {
            return Some(part);
        }
    }
    None
}

#[test]
fn too_little_room_changes_nothing() {
    let mut random = Random(23);
    let mut refused = 0;
    for _ in 0..4_000 {
        let last = random.last();
        let set = random.set(last);
        let from = random.choice();
        let stored = Stored::filled(&set, from, &mut random);
        let choice = random.choice();
        let form = form_of(choice);
        let wanted = Stored::of(&forms::fill(&set, choice).expect("a lawful block size"));
        let bytes = random.below(wanted.bytes.len() as u64 + 1) as usize;
        let numbers = random.below(wanted.numbers.len() as u64 + 1) as usize;
        let (bytes, numbers) = (random.bytes(bytes), random.numbers(numbers));
        let (mut to_bytes, mut to_numbers, mut to) = (bytes.clone(), numbers.clone(), OLD);
        let filled = calls::fill(
            stored.record(),
            form.number(),
            form.size(),
            &mut to,
            &mut to_bytes,
            &mut to_numbers,
        );
        let Some(part) = first_without_room(&wanted.told, bytes.len(), numbers.len()) else {
            assert_eq!(filled, Ok(()));
            continue;
        };
        assert_eq!(
            filled,
            Err(Fault {
                number: 5,
                part,
                index: 2
            }),
            "{stored:?} as {choice:?}"
        );
        assert_eq!((to_bytes, to_numbers, to), (bytes, numbers, OLD));
        refused += 1;
    }
    assert!(refused > 1_000, "only {refused} were refused");
}

#[test]
fn what_has_no_name_or_no_size_changes_nothing() {
    let mut random = Random(24);
    for _ in 0..3_000 {
        let last = random.last();
        let set = random.set(last);
        let from = random.choice();
        let mut stored = Stored::filled(&set, from, &mut random);
        if random.below(2) == 0 {
            stored = stored.damaged(&mut random);
        }
        let form = random.below(6) as u32;
        let size = random.pick(&[0, 1, 2, 64, 4_096, 4_097, u32::MAX]);
        let wanted = if stored.told.form > 3 {
            stored.opened(1).map(|_| ())
        } else if form > 3 {
            Err(Fault {
                number: 12,
                part: 0,
                index: 2,
            })
        } else if form == 2 && !(2..=4_096).contains(&size) {
            stored.opened(1).and(Err(Fault {
                number: 4,
                part: 0,
                index: 2,
            }))
        } else {
            stored.opened(1).map(|_| ())
        };
        let (bytes, numbers) = (vec![0xa5; 20_000], vec![0xa5a5; 65_535]);
        let (mut to_bytes, mut to_numbers, mut to, mut measured) =
            (bytes.clone(), numbers.clone(), OLD, OLD);
        assert_eq!(
            calls::measure(stored.record(), form, size, &mut measured),
            wanted,
            "{stored:?}"
        );
        let filled = calls::fill(
            stored.record(),
            form,
            size,
            &mut to,
            &mut to_bytes,
            &mut to_numbers,
        );
        assert_eq!(filled, wanted, "{stored:?} as {form} in blocks of {size}");
        assert_eq!(measured, to);
        if wanted.is_err() {
            assert_eq!((to_bytes, to_numbers, to), (bytes, numbers, OLD));
        }
    }
}

#[test]
fn an_index_goes_round_through_all_forms() {
    let mut random = Random(25);
    for _ in 0..100 {
        let last = random.last();
        let set = random.set(last);
        let stored = Stored::of(&forms::fill(&set, Choice::Plain).expect("no block size"));
        let first = Index::open(stored.told, stored.bytes, stored.numbers).expect("a lawful index");
        let mut index = first.clone();
        for choice in CHOICES {
            index = index.filled(form_of(choice)).expect("a lawful block size");
            assert_eq!(index.told().form(), Some(form_of(choice)));
        }
        assert_eq!(index.filled(Form::Plain), Ok(first));
        assert_eq!(
            index.filled(Form::Zombit { size: 1 }),
            Err(Fault {
                number: 4,
                part: 0,
                index: 2
            })
        );
    }
}
