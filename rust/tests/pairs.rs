//! Sheets, nearest bays and counts of two sets, in any forms and with any last bays.
mod common;

use bays::calls;
use bays::{Fault, Index, Pair, Report, Sheet};
use common::{Random, Stored};
use reference::round::Round;

// Two sets, each in some form, and as the reference has them.
struct Two {
    free_set: Vec<bool>,
    class_set: Vec<bool>,
    free: Stored,
    class: Stored,
}

impl Two {
    fn random(random: &mut Random, lasts: (u64, u64)) -> Two {
        let free_set = random.set(lasts.0);
        let class_set = random.set(lasts.1);
        let (free_form, class_form) = (random.choice(), random.choice());
        let free = Stored::filled(&free_set, free_form, random);
        let class = Stored::filled(&class_set, class_form, random);
        Two {
            free_set,
            class_set,
            free,
            class,
        }
    }

    fn last(&self) -> u64 {
        self.free_set.len().min(self.class_set.len()) as u64
    }

    fn round(&self) -> Round {
        Round::new(&self.free_set, &self.class_set)
    }
}

fn numbers(report: reference::round::Report) -> Report {
    Report {
        handed: report.handed as u32,
        stretches: report.stretches as u32,
        place: report.place as u32,
    }
}

const OLD: Report = Report {
    handed: 91,
    stretches: 92,
    place: 93,
};

fn compare_sheet(two: &Two, place: u32, room: usize, random: &mut Random) {
    let before = random.words(room);
    let mut out = before.clone();
    let mut report = OLD;
    let answer = calls::sheet(
        two.free.record(),
        two.class.record(),
        place,
        &mut out,
        &mut report,
    );
    let mut round = two.round();
    if let Err(refusal) = round.go(u64::from(place)) {
        let number = refusal as u32;
        assert_eq!(
            answer,
            Err(Fault {
                number,
                part: 0,
                index: 0
            })
        );
        assert_eq!((out, report), (before, OLD));
        return;
    }
    let mut wanted: Vec<u64> = before.iter().map(|old| u64::from(*old)).collect();
    let _ = round.sheet(&mut wanted);
    assert_eq!(answer, Ok(()));
    assert_eq!(
        out.iter().map(|bay| u64::from(*bay)).collect::<Vec<_>>(),
        wanted,
        "{:?} {:?}",
        two.free,
        two.class
    );
    assert_eq!(
        report,
        numbers(round.close()),
        "{:?} {:?} from {place}",
        two.free,
        two.class
    );
}

fn compare_nearest(two: &Two, random: &mut Random) {
    let places: Vec<u32> = (0..random.below(8))
        .map(|_| random.place(two.last()))
        .collect();
    let room = random.below(10) as usize;
    let before = random.words(room);
    let mut answers = before.clone();
    assert_eq!(
        calls::nearest(two.free.record(), two.class.record(), &places, &mut answers),
        Ok(())
    );
    let round = two.round();
    for (k, answer) in answers.iter().enumerate() {
        let wanted = match places.get(k) {
            Some(place) => round
                .nearest(u64::from(*place))
                .unwrap_or(None)
                .unwrap_or(0) as u32,
            None => before[k],
        };
        assert_eq!(
            *answer, wanted,
            "{:?} {:?} at {places:?}",
            two.free, two.class
        );
    }
}

fn compare_counts(two: &Two, random: &mut Random) {
    let firsts: Vec<u32> = (0..random.below(8))
        .map(|_| random.place(two.last()))
        .collect();
    let lasts: Vec<u32> = (0..random.below(8))
        .map(|_| random.place(two.last()))
        .collect();
    let room = random.below(10) as usize;
    let before = random.words(room);
    let mut counts = before.clone();
    assert_eq!(
        calls::count(
            two.free.record(),
            two.class.record(),
            &firsts,
            &lasts,
            &mut counts
        ),
        Ok(())
    );
    let round = two.round();
    for (k, count) in counts.iter().enumerate() {
        let wanted = match (firsts.get(k), lasts.get(k)) {
            (Some(first), Some(last)) => round
                .count(u64::from(*first), u64::from(*last))
                .unwrap_or(0) as u32,
            _ => before[k],
        };
        assert_eq!(
            *count, wanted,
            "{:?} {:?} from {firsts:?} to {lasts:?}",
            two.free, two.class
        );
    }
}

#[test]
fn small_pairs_answer_alike() {
    let mut random = Random(31);
    for _ in 0..3_000 {
        let lasts = (random.last().min(300), random.last().min(300));
        let two = Two::random(&mut random, lasts);
        for _ in 0..3 {
            let place = random.place(two.last());
            let room = random.pick(&[0, 1, 2, 3, 10, 400]);
            compare_sheet(&two, place, room, &mut random);
        }
        compare_nearest(&two, &mut random);
        compare_counts(&two, &mut random);
    }
}

#[test]
fn large_pairs_answer_alike() {
    let mut random = Random(32);
    for _ in 0..25 {
        let lasts = (random.between(2_000, 9_000), random.between(2_000, 9_000));
        let two = Two::random(&mut random, lasts);
        let place = random.place(two.last());
        let room = random.below(3_000) as usize;
        compare_sheet(&two, place, room, &mut random);
        compare_nearest(&two, &mut random);
        compare_counts(&two, &mut random);
    }
}

#[test]
fn the_largest_pair_answers_alike() {
    let mut random = Random(33);
    let free_set: Vec<bool> = (1..=65_535).map(|bay| bay % 3 == 0).collect();
    let class_set: Vec<bool> = (1..=65_535).map(|bay| bay % 7 == 0).collect();
    for (free_form, class_form) in [(0, 0), (1, 3), (2, 2), (3, 1)] {
        let choice = |form| match form {
            0 => reference::forms::Choice::Plain,
            1 => reference::forms::Choice::List,
            2 => reference::forms::Choice::Zombit { size: 64 },
            _ => reference::forms::Choice::Pioneer,
        };
        let two = Two {
            free: Stored::filled(&free_set, choice(free_form), &mut random),
            class: Stored::filled(&class_set, choice(class_form), &mut random),
            free_set: free_set.clone(),
            class_set: class_set.clone(),
        };
        compare_sheet(&two, 60_001, 65_535, &mut random);
        compare_nearest(&two, &mut random);
        compare_counts(&two, &mut random);
    }
}

#[test]
fn a_pair_that_is_not_opened_changes_nothing() {
    let mut random = Random(34);
    let mut refused = 0;
    for _ in 0..6_000 {
        let lasts = (random.last().min(200), random.last().min(200));
        let mut two = Two::random(&mut random, lasts);
        for side in [&mut two.free, &mut two.class] {
            if random.below(2) == 0 {
                *side = side.damaged(&mut random);
            }
        }
        let unnamed = |stored: &Stored, index| {
            if stored.told.form > 3 {
                stored.opened(index).map(|_| ())
            } else {
                Ok(())
            }
        };
        let wanted = unnamed(&two.free, 1)
            .and(unnamed(&two.class, 2))
            .and(two.free.opened(1).map(|_| ()))
            .and(two.class.opened(2).map(|_| ()));
        if wanted.is_ok() {
            continue;
        }
        refused += 1;
        let (places, before) = (random.words(4), random.words(5));
        let (mut out, mut report) = (before.clone(), OLD);
        let (free, class) = (two.free.record(), two.class.record());
        assert_eq!(
            calls::sheet(free, class, 0, &mut out, &mut report),
            wanted,
            "{:?} {:?}",
            two.free,
            two.class
        );
        assert_eq!(calls::nearest(free, class, &places, &mut out), wanted);
        assert_eq!(
            calls::count(free, class, &places, &places, &mut out),
            wanted
        );
        assert_eq!((out, report), (before, OLD));
    }
    assert!(refused > 2_000, "only {refused} were refused");
}

#[test]
fn the_worked_garage() {
    let free = Index::of_bits(16, &[135, 7]).expect("a lawful index");
    let charging = Index::of_members(16, &[2, 5, 9, 10, 14]).expect("a lawful index");
    let pair = Pair::new(&free, &charging);
    let wanted = Sheet {
        bays: vec![2, 9, 10],
        report: Report {
            handed: 3,
            stretches: 9,
            place: 17,
        },
    };
    assert_eq!(pair.sheet(1, usize::MAX), Ok(wanted));
    assert_eq!(
        pair.sheet(1, 2).expect("place 1 is there").report.stretches,
        6
    );
    assert_eq!(pair.sheet(0, 2).unwrap_err().to_string(), "refused 7");
    assert_eq!(pair.sheet(18, 2).unwrap_err().to_string(), "refused 9");
    assert_eq!(pair.nearest(&[0, 5, 6, 16, 17]), [0, 3, 8, 11, 0]);
    assert_eq!(pair.count(&[1, 4, 9, 3], &[16, 7, 8, 17]), [7, 0, 0, 0]);
    let unlawful = Index::of_bits(10, &[135, 7]).unwrap_err();
    assert_eq!(unlawful.to_string(), "refused 3, part 1 of index 1");
}
