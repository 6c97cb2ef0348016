// The calls of a round over two sets: a sheet, the nearest free bay, and counts.
use super::faults::of_second;
use super::index::{Index, with_index};
use super::set::Set;
use super::words::{WORDS, Words, low, nth_one, reach};
use crate::form::Sort;
use crate::told::{Fault, Report, Stored};

/// What a round refuses: no bay, and a bay beyond the last.
const NO_BAY: u32 = 7;
const BEYOND: u32 = 9;

fn open_pair<'a>(f: Stored<'a>, c: Stored<'a>) -> Result<(Index<'a>, Index<'a>), Fault> {
    let free = Index::open(f)?;
    let class = Index::open(c).map_err(of_second)?;
    Ok((free, class))
}

// The stretches of a round, 64 bays at a time, with what reaches over from the bays before. A stretch begins at a common bay, behind one,
// and at a bay of one set alone if the last such bay before it, with no common bay between, is one of the other set.
#[derive(Default)]
struct Stretches {
    begins: u64,
    free_ahead: bool,
    class_ahead: bool,
}

// The bays at which a row ends behind a bay of `from`, where the row is bays of no set and of `from` alone: the carry of an addition goes
// through it.
#[inline]
fn ends(row: u64, from: u64, ahead: &mut bool) -> u64 {
    let (sum, over) = row.carrying_add(from, *ahead);
    *ahead = over;
    sum
}

impl Stretches {
    // Where the stretches of 64 bays begin.
    #[inline]
    fn next(&mut self, free: u64, class: u64) -> u64 {
        let (common, free_alone, class_alone) = (free & class, free & !class, class & !free);
        let behind_free = ends(!class, free_alone, &mut self.free_ahead);
        let behind_class = ends(!free, class_alone, &mut self.class_ahead);
        let begins = common | common << 1 | self.begins | (class_alone & behind_free) | (free_alone & behind_class);
        self.begins = common >> 63;
        begins
    }
}

// Writes a set to words that are 0, without the bays before `place`.
fn decode_from(index: &Index, place: u32, words: &mut Words) {
    with_index!(index, set => set.decode(words));
    let (w, shift) = (((place - 1) / 64) as usize, (place - 1) % 64);
    words[..w].fill(0);
    if w < WORDS {
        words[w] &= u64::MAX << shift;
    }
}

// Up to so many ends and beginnings of runs in a word, its bays are written run by run.
const FEW: u32 = 8;

// Writes the bays of a word, behind the bay `base`, to a memory of just so many.
#[inline]
fn write_bays(mut word: u64, base: u32, out: &mut [u32]) {
    if (word ^ word << 1).count_ones() > FEW {
        for slot in out {
            *slot = base + word.trailing_zeros() + 1;
            word &= word - 1;
        }
        return;
    }
    let mut rest = out;
    while word != 0 {
        let start = word.trailing_zeros();
        let length = (word >> start).trailing_ones();
        let (run, behind) = rest.split_at_mut(length as usize);
        for (slot, bay) in run.iter_mut().zip(base + start + 1..) {
            *slot = bay;
        }
        rest = behind;
        word &= u64::MAX.checked_shl(start + length).unwrap_or(0);
    }
}

// Writes the common bays of two sets, as many as there is room for, and tells how many those are.
fn list_common(free: &[u64], class: &[u64], out: &mut [u32]) -> usize {
    let mut handed = 0;
    for (w, (f, c)) in (0..).zip(free.iter().zip(class)) {
        let mut common = f & c;
        if common == 0 {
            continue;
        }
        let (mut found, room) = (common.count_ones() as usize, out.len() - handed);
        if found > room {
            common &= reach(if room == 0 { 0 } else { nth_one(common, room as u32) + 1 });
            found = room;
        }
        write_bays(common, 64 * w, &mut out[handed..handed + found]);
        handed += found;
        if found == room {
            break;
        }
    }
    handed
}

// How many stretches begin from `place` to before `end`, of two sets without the bays before the place.
fn count_stretches(free: &Words, class: &Words, place: u32, end: u32) -> u32 {
    if place == end {
        return 0;
    }
    let (first, last) = (((place - 1) / 64) as usize, ((end - 2) / 64) as usize);
    let mut stretches = Stretches { begins: 1 << ((place - 1) % 64), ..Stretches::default() };
    let mut taken = 0;
    for (f, c) in free[first..last].iter().zip(&class[first..last]) {
        taken += stretches.next(*f, *c).count_ones();
    }
    taken + (stretches.next(free[last], class[last]) & low((end - 2) % 64 + 1)).count_ones()
}

/// A sheet from `place` on: the common bays as they fit, and what the round then tells.
pub fn sheet(f: Stored, c: Stored, place: u32, out: &mut [u32]) -> Result<Report, Fault> {
    let (free, class) = open_pair(f, c)?;
    let last = free.last().min(class.last());
    if place == 0 || place > last + 1 {
        return Err(Fault { number: if place == 0 { NO_BAY } else { BEYOND }, ..Fault::default() });
    }
    let (mut free_words, mut class_words) = ([0; WORDS], [0; WORDS]);
    decode_from(&free, place, &mut free_words);
    decode_from(&class, place, &mut class_words);
    let words = last.div_ceil(64) as usize;
    let handed = list_common(&free_words[..words], &class_words[..words], out);
    let end = if handed == out.len() { out.last().map_or(place, |bay| bay + 1) } else { last + 1 };
    let stretches = count_stretches(&free_words, &class_words, place, end);
    Ok(Report { handed: handed as u32, stretches, place: end })
}

// The free bay up to `last` nearest to a bay, the lower at equal distance; 0 for none and for what is no bay of the round.
#[inline]
fn nearest_in<S: Set>(free: &S, place: u32, last: u32) -> u32 {
    if place == 0 || place > last {
        return 0;
    }
    let below = free.previous(Sort::Members, place);
    let above = free.next(Sort::Members, place).filter(|bay| *bay <= last);
    match (below, above) {
        (Some(a), Some(b)) if b - place < place - a => b,
        _ => below.or(above).unwrap_or(0),
    }
}

/// The nearest free bay at each place.
pub fn nearest(f: Stored, c: Stored, places: &[u32], answers: &mut [u32]) -> Result<(), Fault> {
    let (free, class) = open_pair(f, c)?;
    let last = free.last().min(class.last());
    with_index!(&free, set => {
        for (place, answer) in places.iter().zip(answers) {
            *answer = nearest_in(set, *place, last);
        }
    });
    Ok(())
}

/// How many free bays lie from each first bay to its last; 0 where the round refuses to count.
pub fn count(f: Stored, c: Stored, firsts: &[u32], lasts: &[u32], counts: &mut [u32]) -> Result<(), Fault> {
    let (free, class) = open_pair(f, c)?;
    let last = free.last().min(class.last());
    with_index!(&free, set => {
        for ((a, b), count) in firsts.iter().zip(lasts).zip(counts) {
            let lawful = *a >= 1 && a <= b && *b <= last;
            *count = if lawful { set.count(*a, *b) } else { 0 };
        }
    });
    Ok(())
}
