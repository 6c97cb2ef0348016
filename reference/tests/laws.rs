//! The laws that the documents state, tried on all small sets and sources.

use reference::forms::{fill, open, Choice, Source};
use reference::round::Round;
use reference::sets::{holds, Set};
use reference::zombit::Parts;

/// All sets of u bays.
fn sets_of(u: u64) -> Vec<Set> {
    let mut sets = Vec::new();
    for bits in 0..1u64 << u {
        let mut set = Set::new();
        for bay in 1..=u {
            set.push(bits >> (bay - 1) & 1 == 1);
        }
        sets.push(set);
    }
    sets
}

/// docs/FILLS.md, `fills_keep`.
#[test]
fn what_is_filled_opens_as_the_same_set() {
    for u in 1..=9 {
        for set in sets_of(u) {
            let mut choices = vec![Choice::Plain, Choice::List, Choice::Pioneer];
            for size in 2..=11 {
                choices.push(Choice::Zombit { size });
            }
            choices.push(Choice::Zombit { size: 4096 });
            for choice in choices {
                let index = open(&fill(&set, choice).unwrap()).unwrap();
                assert_eq!(index.set, set);
                assert_eq!(index.choice, choice);
            }
        }
    }
}

/// Tries sources, all of one last bay, form and block size. Each that is accepted must be what filling gives back,
/// and as many must be accepted as there are sets.
fn try_sources(u: u64, sources: Vec<Source>) {
    let mut accepted = 0;
    for source in sources {
        if let Ok(index) = open(&source) {
            assert_eq!(fill(&index.set, index.choice).unwrap(), source);
            accepted += 1;
        }
    }
    assert_eq!(accepted, 1 << u);
}

/// docs/FILLS.md, `refills_return`.
#[test]
fn what_is_opened_fills_to_the_same_source() {
    for last in 1..=5 {
        let mut sources = Vec::new();
        for byte in 0..=255 {
            let bits = vec![byte];
            sources.push(Source::Plain { last, bits });
        }
        try_sources(last, sources);

        // All lists of up to u + 1 numbers from 0 to u + 1.
        let mut sources = Vec::new();
        let mut lists = vec![Vec::new()];
        for _ in 0..=last + 1 {
            let mut longer = Vec::new();
            for numbers in lists {
                for number in 0..=last + 1 {
                    let mut list: Vec<u64> = numbers.clone();
                    list.push(number);
                    longer.push(list);
                }
                sources.push(Source::List { last, numbers });
            }
            lists = longer;
        }
        try_sources(last, sources);

        let mut sources = Vec::new();
        for count in 0..=last + 1 {
            for start in 0..=255 {
                for sum in 0..=255 {
                    let starts = vec![start];
                    let sums = if count == 0 { vec![] } else { vec![sum] };
                    if count == 0 && sum > 0 {
                        continue;
                    }
                    sources.push(Source::Pioneer {
                        last,
                        count,
                        starts,
                        sums,
                    });
                }
            }
        }
        try_sources(last, sources);

        for size in 2..=6 {
            let mut sources = Vec::new();
            for uniform in 0..16 {
                for marked in 0..16 {
                    for mixed in 0..=256 {
                        let parts = Parts {
                            uniform: vec![uniform],
                            marked: vec![marked],
                            mixed: if mixed == 256 {
                                vec![]
                            } else {
                                vec![mixed as u8]
                            },
                        };
                        sources.push(Source::Zombit { last, size, parts });
                    }
                }
            }
            try_sources(last, sources);
        }
    }
}

/// The fewest lawful stretches into which the bays a to b can be cut.
fn fewest_stretches(free: &Set, class: &Set, a: u64, b: u64) -> u64 {
    let mut fewest = vec![0]; // of the first 0, 1, .. bays
    for end in a..=b {
        let mut least = u64::MAX;
        for start in a..=end {
            let mut any_free = false;
            let mut any_class = false;
            for bay in start..=end {
                any_free |= holds(free, bay);
                any_class |= holds(class, bay);
            }
            let common = start == end && any_free && any_class;
            if !any_free || !any_class || common {
                least = least.min(fewest[(start - a) as usize] + 1);
            }
        }
        fewest.push(least);
    }
    fewest[(b + 1 - a) as usize]
}

/// docs/ROUND.md, "Stretches": next gives the first common bay from the place on, by the fewest stretches.
#[test]
fn next_gives_the_first_common_bay_by_the_fewest_stretches() {
    for (u, v) in [(1, 1), (3, 5), (5, 3), (6, 6), (5, 7)] {
        for free in sets_of(u) {
            for class in sets_of(v) {
                let w = u.min(v);
                let mut round = Round::new(&free, &class);
                let mut place = 1;
                loop {
                    let first = (place..=w).find(|&bay| holds(&free, bay) && holds(&class, bay));
                    let end = first.unwrap_or(w);
                    let fewest = fewest_stretches(&free, &class, place, end);
                    assert_eq!(round.next(), (first, fewest));
                    place = end + 1;
                    if first.is_none() {
                        break;
                    }
                }
                assert_eq!(round.next(), (None, 0));
                assert_eq!(round.close().place, w + 1);
            }
        }
    }
}
