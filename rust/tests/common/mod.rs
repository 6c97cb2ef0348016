//! What the tests share: random numbers and sets from fixed seeds, indexes as the reference has them and as the library does.
#![allow(dead_code)]

use bays::calls::Record;
use bays::{Fault, Form, Told};
use reference::forms::{self, Choice, Source};
use reference::sets::Set;
use reference::zombit::Parts;

/// Numbers that look random, the same ones for one seed (SplitMix64).
pub struct Random(pub u64);

impl Random {
    pub fn next(&mut self) -> u64 {
        self.0 = self.0.wrapping_add(0x9e37_79b9_7f4a_7c15);
        let mut z = self.0;
        z = (z ^ (z >> 30)).wrapping_mul(0xbf58_476d_1ce4_e5b9);
        z = (z ^ (z >> 27)).wrapping_mul(0x94d0_49bb_1331_11eb);
        z ^ (z >> 31)
    }

    /// A number below n.
    pub fn below(&mut self, n: u64) -> u64 {
        self.next() % n
    }

    /// A number from low to high.
    pub fn between(&mut self, low: u64, high: u64) -> u64 {
        low + self.below(high - low + 1)
    }

    pub fn pick<T: Copy>(&mut self, of: &[T]) -> T {
        of[self.below(of.len() as u64) as usize]
    }

    pub fn bytes(&mut self, length: usize) -> Vec<u8> {
        (0..length).map(|_| self.next() as u8).collect()
    }

    pub fn numbers(&mut self, length: usize) -> Vec<u16> {
        (0..length).map(|_| self.next() as u16).collect()
    }

    pub fn words(&mut self, length: usize) -> Vec<u32> {
        (0..length).map(|_| self.next() as u32).collect()
    }

    /// A set up to a last bay: sparse, dense, in runs, empty or full.
    pub fn set(&mut self, last: u64) -> Set {
        let share = self.pick(&[0, 1, 10, 50, 90, 99, 100]);
        let run = self.pick(&[1, 1, 1, 7, 64, 300]);
        let mut member = false;
        (0..last)
            .map(|bay| {
                if bay == 0 || self.below(run) == 0 {
                    member = self.below(100) < share;
                }
                member
            })
            .collect()
    }

    /// A last bay, mostly a small one.
    pub fn last(&mut self) -> u64 {
        match self.below(10) {
            0 => self.between(1, 3),
            1..=7 => self.between(1, 150),
            _ => self.between(1, 2_000),
        }
    }

    pub fn choice(&mut self) -> Choice {
        match self.below(5) {
            0 => Choice::Plain,
            1 => Choice::List,
            2 => Choice::Pioneer,
            _ => {
                let size = self.pick(&[2, 3, 7, 8, 63, 64, 65, 512, 4_095, 4_096]);
                Choice::Zombit { size }
            }
        }
    }

    /// A place: within the bays, at their ends, or far beyond.
    pub fn place(&mut self, last: u64) -> u32 {
        let edges = [
            0,
            1,
            last - 1,
            last,
            last + 1,
            last + 2,
            65_535,
            65_536,
            1 << 31,
            u64::from(u32::MAX),
        ];
        match self.below(4) {
            0 => self.pick(&edges) as u32,
            _ => self.between(0, last + 1) as u32,
        }
    }
}

/// A form of the reference, as the library's.
pub fn form_of(choice: Choice) -> Form {
    match choice {
        Choice::Plain => Form::Plain,
        Choice::List => Form::List,
        Choice::Zombit { size } => Form::Zombit { size: size as u32 },
        Choice::Pioneer => Form::Pioneer,
    }
}

/// An index in memories that the library reads.
#[derive(Clone, Debug)]
pub struct Stored {
    pub told: Told,
    pub bytes: Vec<u8>,
    pub numbers: Vec<u16>,
}

impl Stored {
    pub fn record(&self) -> Record<'_> {
        Record {
            told: self.told,
            bytes: &self.bytes,
            numbers: &self.numbers,
        }
    }

    /// The index of a source, its parts one behind the other.
    pub fn of(source: &Source) -> Stored {
        let mut told = Told::default();
        let mut bytes = Vec::new();
        let mut numbers = Vec::new();
        match source {
            Source::Plain { last, bits } => {
                told.last = *last as u32;
                told.first = bits.len();
                bytes.extend(bits);
            }
            Source::List {
                last,
                numbers: list,
            } => {
                told.form = 1;
                told.last = *last as u32;
                told.first = list.len();
                numbers.extend(list.iter().map(|bay| *bay as u16));
            }
            Source::Zombit { last, size, parts } => {
                told.form = 2;
                told.last = *last as u32;
                told.number = *size as u32;
                told.first = parts.uniform.len();
                told.second = parts.marked.len();
                told.third = parts.mixed.len();
                bytes = [&parts.uniform[..], &parts.marked[..], &parts.mixed[..]].concat();
            }
            Source::Pioneer {
                last,
                count,
                starts,
                sums,
            } => {
                told.form = 3;
                told.last = *last as u32;
                told.number = *count as u32;
                told.first = starts.len();
                told.second = sums.len();
                bytes = [&starts[..], &sums[..]].concat();
            }
        }
        Stored {
            told,
            bytes,
            numbers,
        }
    }

    /// The index of a set in a form, with something behind its parts.
    pub fn filled(set: &[bool], choice: Choice, random: &mut Random) -> Stored {
        let mut stored = Stored::of(&forms::fill(set, choice).expect("a lawful block size"));
        let behind = random.below(3) as usize;
        stored.bytes.extend(random.bytes(behind));
        stored.numbers.extend(random.numbers(behind));
        stored
    }

    /// What the reference opens: the parts cut from the memories, or what is left of these.
    pub fn source(&self) -> Source {
        let mut rest = &self.bytes[..];
        let mut cut = |length: usize| {
            let (part, behind) = rest.split_at(length.min(rest.len()));
            rest = behind;
            part.to_vec()
        };
        let told = self.told;
        let last = u64::from(told.last);
        match told.form {
            0 => Source::Plain {
                last,
                bits: cut(told.first),
            },
            1 => Source::List {
                last,
                numbers: self.numbers[..told.first.min(self.numbers.len())]
                    .iter()
                    .map(|bay| u64::from(*bay))
                    .collect(),
            },
            2 => Source::Zombit {
                last,
                size: u64::from(told.number),
                parts: Parts {
                    uniform: cut(told.first),
                    marked: cut(told.second),
                    mixed: cut(told.third),
                },
            },
            _ => Source::Pioneer {
                last,
                count: u64::from(told.number),
                starts: cut(told.first),
                sums: cut(told.second),
            },
        }
    }

    /// The set, or the fault by which the library must refuse it as this index of a call.
    pub fn opened(&self, index: u32) -> Result<Set, Fault> {
        if self.told.form > 3 {
            return Err(Fault {
                number: 12,
                part: 0,
                index,
            });
        }
        match forms::open(&self.source()) {
            Ok(opened) => Ok(opened.set),
            Err(fault) => Err(Fault {
                number: fault.flaw as u32,
                part: u32::from(fault.part),
                index,
            }),
        }
    }

    /// The same index with something about it changed, mostly so that it is not lawful.
    pub fn damaged(&self, random: &mut Random) -> Stored {
        let mut stored = self.clone();
        for _ in 0..random.between(1, 2) {
            stored.damage(random);
        }
        stored
    }

    fn damage(&mut self, random: &mut Random) {
        let told = &mut self.told;
        match random.below(10) {
            0 => {
                told.last = random.pick(&[
                    0,
                    1,
                    told.last + 1,
                    told.last.saturating_sub(1),
                    65_535,
                    65_536,
                    u32::MAX,
                ])
            }
            1 => {
                told.number = random.pick(&[
                    0,
                    1,
                    told.number + 1,
                    told.number.saturating_sub(1),
                    4_096,
                    4_097,
                    u32::MAX,
                ])
            }
            2 => told.first = changed(told.first, random),
            3 => told.second = changed(told.second, random),
            4 => told.third = changed(told.third, random),
            5 => {
                self.bytes
                    .truncate(random.below(self.bytes.len() as u64 + 1) as usize);
                self.numbers
                    .truncate(random.below(self.numbers.len() as u64 + 1) as usize);
            }
            6 => told.form = random.below(5) as u32,
            _ => self.flip(random),
        }
    }

    /// Turns a bit of a byte, and of a number.
    fn flip(&mut self, random: &mut Random) {
        if !self.bytes.is_empty() {
            let at = random.below(self.bytes.len() as u64) as usize;
            self.bytes[at] ^= 1 << random.below(8);
        }
        if !self.numbers.is_empty() {
            let at = random.below(self.numbers.len() as u64) as usize;
            self.numbers[at] ^= 1 << random.below(16);
        }
    }
}

fn changed(length: usize, random: &mut Random) -> usize {
    random.pick(&[
        0,
        length + 1,
        length.saturating_sub(1),
        length * 2,
        usize::MAX,
    ])
}
