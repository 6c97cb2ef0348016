// The zombit form: blocks of bays, of which only the mixed ones are written out.
use super::bits::Bits;
use super::faults::{NUMBERS_SIZE, UNLAWFUL, check, check_last, check_length, check_spare};
use super::set::{Set, share};
use super::words::{Row, Words, fill_range, low};
use super::writer::Writer;
use crate::form::Sort;
use crate::told::Fault;

#[derive(Clone, Copy)]
pub struct Zombit<'a> {
    last: u32,
    size: u32,
    uniform: Bits<'a>,
    marked: Bits<'a>,
    mixed: Bits<'a>,
}

/// Opens the parts of a set of `last` bays in blocks of `size`.
pub fn open<'a>(last: u32, size: u32, parts: [&'a [u8]; 3]) -> Result<Zombit<'a>, Fault> {
    let [uniform, marked, mixed] = parts;
    check_last(last)?;
    check(is_size(size), NUMBERS_SIZE, 0)?;
    let blocks = last.div_ceil(size);
    check_length(uniform, blocks, 1)?;
    check_length(marked, blocks, 2)?;
    let uniforms = Bits::new(uniform, blocks);
    let mixed_bits = (blocks - uniforms.ones(1, blocks)) * size;
    check_length(mixed, mixed_bits, 3)?;
    check_spare(uniform, blocks, 1)?;
    check_spare(marked, blocks, 2)?;
    check_spare(mixed, mixed_bits, 3)?;
    let index = Zombit { last, size, uniform: uniforms, marked: Bits::new(marked, blocks), mixed: Bits::new(mixed, mixed_bits) };
    check(index.marks_are_lawful(), UNLAWFUL, 2)?;
    check(index.mixes_are_lawful(), UNLAWFUL, 3)?;
    Ok(index)
}

pub fn is_size(size: u32) -> bool {
    (2..=4096).contains(&size)
}

// What a block is: all members, all non-members, or mixed.
#[derive(Clone, Copy, PartialEq, Eq)]
enum Kind {
    All,
    Bare,
    Mixed,
}

// Up to 64 blocks from one on: which of them are mixed, and which are all members.
#[derive(Clone, Copy)]
struct Span {
    mixed: u64,
    all: u64,
}

// What lies before a block: the bits of the mixed row, and the members.
#[derive(Clone, Copy, Default)]
struct Before {
    bits: u32,
    members: u32,
}

impl Zombit<'_> {
    fn blocks(&self) -> u32 {
        self.uniform.len()
    }

    fn marks_are_lawful(&self) -> bool {
        let blocks = self.blocks();
        let mixed_are_marked = (0..self.uniform.words()).all(|w| {
            let valid = low((blocks - 64 * w).min(64));
            !(self.uniform.word(w) | self.marked.word(w)) & valid == 0
        });
        let short = !self.last.is_multiple_of(self.size);
        mixed_are_marked && !(short && self.uniform.get(blocks) && self.marked.get(blocks))
    }

    fn mixes_are_lawful(&self) -> bool {
        let size = self.size;
        let mixed = (0..self.mixed.len() / size).all(|z| self.mixed.seen(z * size, size).is_mixed());
        let past = self.blocks() * size - self.last;
        let short = past > 0 && !self.uniform.get(self.blocks());
        mixed && !(short && self.mixed.ones(self.mixed.len() - past + 1, self.mixed.len()) > 0)
    }

    #[inline]
    fn kind(&self, block: u32) -> Kind {
        if !self.uniform.get(block + 1) {
            Kind::Mixed
        } else if self.marked.get(block + 1) {
            Kind::All
        } else {
            Kind::Bare
        }
    }

    // How many bits of the mixed row lie before those of a block.
    #[inline]
    fn bits_before(&self, block: u32) -> u32 {
        (block - self.uniform.ones(1, block)) * self.size
    }

    // The block of a bay, and the bay's place in it, from 1.
    #[inline]
    fn spot(&self, bay: u32) -> (u32, u32) {
        ((bay - 1) / self.size, (bay - 1) % self.size + 1)
    }

    // The first bay of the sort in a block from the place `at` on, where the mixed row has so many bits before the block.
    #[inline]
    fn first_in(&self, sort: Sort, block: u32, at: u32, bits: u32) -> Option<u32> {
        let from = match (self.kind(block), sort) {
            (Kind::All, Sort::Members) | (Kind::Bare, Sort::Others) => Some(at),
            (Kind::Mixed, _) => self.mixed.next(sort, bits + at).map(|bit| bit - bits).filter(|at| *at <= self.size),
            _ => None,
        };
        from.map(|at| block * self.size + at)
    }

    // The last bay of the sort in a block up to the place `at`, where the mixed row has so many bits before the block.
    #[inline]
    fn last_in(&self, sort: Sort, block: u32, at: u32, bits: u32) -> Option<u32> {
        let to = match (self.kind(block), sort) {
            (Kind::All, Sort::Members) | (Kind::Bare, Sort::Others) => Some(at),
            (Kind::Mixed, _) => self.mixed.previous(sort, bits + at).filter(|bit| *bit > bits).map(|bit| bit - bits),
            _ => None,
        };
        to.map(|at| block * self.size + at)
    }

    // The next block behind one that has a bay of the sort.
    #[inline]
    fn next_block(&self, sort: Sort, block: u32) -> Option<u32> {
        let marked = self.marked.next(sort, block + 2);
        let bit = match sort {
            Sort::Members => marked,
            Sort::Others => [marked, self.uniform.next(sort, block + 2)].into_iter().flatten().min(),
        };
        bit.map(|bit| bit - 1)
    }

    // The last block before one that has a bay of the sort.
    #[inline]
    fn previous_block(&self, sort: Sort, block: u32) -> Option<u32> {
        let marked = self.marked.previous(sort, block);
        let bit = match sort {
            Sort::Members => marked,
            Sort::Others => marked.max(self.uniform.previous(sort, block)),
        };
        bit.map(|bit| bit - 1)
    }

    // How many bits of the mixed row lie before a block, if that is mixed; of another it is not asked.
    #[inline]
    fn bits_if_mixed(&self, block: u32) -> u32 {
        if self.uniform.get(block + 1) { 0 } else { self.bits_before(block) }
    }

    // How many members lie from 1 to `to`, in one pass over the three rows.
    #[inline]
    fn members(&self, to: u32) -> u32 {
        if to == 0 {
            return 0;
        }
        let (block, at) = self.spot(to);
        let mixed = block - self.uniform.ones(1, block);
        let full = self.marked.ones(1, block) - mixed;
        let bits = mixed * self.size;
        let (own, own_bits) = match self.kind(block) {
            Kind::All => (at, 0),
            Kind::Bare => (0, 0),
            Kind::Mixed => (0, at),
        };
        full * self.size + own + self.mixed.ones(1, bits + own_bits)
    }

    #[inline]
    fn span(&self, block: u32, width: u32) -> Span {
        let uniform = self.uniform.bits(block, width);
        let valid = low(width.min(self.blocks() - block));
        Span { mixed: !uniform & valid, all: uniform & self.marked.bits(block, width) }
    }

    // What lies before the end of some blocks, where so much lies before them.
    #[inline]
    fn behind(&self, before: Before, blocks: Span) -> Before {
        let bits = before.bits + blocks.mixed.count_ones() * self.size;
        let members = blocks.all.count_ones() * self.size + self.mixed.ones(before.bits + 1, bits);
        Before { bits, members: before.members + members }
    }

    // The block that has the `n`-th bay of the sort, and what lies before it. It steps over many blocks at a time as long as the bay lies
    // behind them, and then over fewer, so that little is counted twice.
    #[inline]
    fn block_of(&self, sort: Sort, n: u32) -> Option<(u32, Before)> {
        let (mut block, mut before) = (0, Before::default());
        for width in [64, 8, 1] {
            if width > 1 && width * self.size > 4096 {
                continue;
            }
            while block < self.blocks() {
                let end = block + width.min(self.blocks() - block);
                let behind = self.behind(before, self.span(block, width));
                if share(sort, behind.members, end * self.size) >= n {
                    break;
                }
                (block, before) = (end, behind);
            }
        }
        (block < self.blocks()).then_some((block, before))
    }
}

impl Set for Zombit<'_> {
    fn last(&self) -> u32 {
        self.last
    }

    #[inline]
    fn holds(&self, i: u32) -> bool {
        if i == 0 || i > self.last {
            return false;
        }
        let (block, at) = self.spot(i);
        match self.kind(block) {
            Kind::All => true,
            Kind::Bare => false,
            Kind::Mixed => self.mixed.get(self.bits_before(block) + at),
        }
    }

    #[inline]
    fn next(&self, sort: Sort, i: u32) -> Option<u32> {
        if i > self.last {
            return None;
        }
        let (block, at) = self.spot(i.max(1));
        let bits = self.bits_if_mixed(block);
        let bay = self.first_in(sort, block, at, bits).or_else(|| {
            let next = self.next_block(sort, block)?;
            self.first_in(sort, next, 1, self.bits_if_mixed(next))
        });
        bay.filter(|bay| *bay <= self.last)
    }

    #[inline]
    fn previous(&self, sort: Sort, i: u32) -> Option<u32> {
        let to = i.min(self.last);
        if to == 0 {
            return None;
        }
        let (block, at) = self.spot(to);
        self.last_in(sort, block, at, self.bits_if_mixed(block)).or_else(|| {
            let previous = self.previous_block(sort, block)?;
            self.last_in(sort, previous, self.size, self.bits_if_mixed(previous))
        })
    }

    #[inline]
    fn rank(&self, sort: Sort, i: u32) -> u32 {
        let to = i.min(self.last);
        share(sort, self.members(to), to)
    }

    #[inline]
    fn select(&self, sort: Sort, n: u32) -> Option<u32> {
        if n == 0 {
            return None;
        }
        let (block, before) = self.block_of(sort, n)?;
        let left = n - share(sort, before.members, block * self.size);
        let at = match self.kind(block) {
            Kind::Mixed => self.mixed.kth(sort, before.bits + 1, left)? - before.bits,
            _ => left,
        };
        Some(block * self.size + at).filter(|bay| *bay <= self.last)
    }

    fn decode(&self, words: &mut Words) {
        let mut bits = 0;
        for first in (0..self.blocks()).step_by(64) {
            let Span { mixed, all } = self.span(first, 64);
            let mut left = mixed | all;
            while left != 0 {
                let k = left.trailing_zeros();
                left &= left - 1;
                let from = (first + k) * self.size;
                let to = self.last.min(from + self.size);
                if mixed >> k & 1 == 1 {
                    copy(self.mixed, bits, words, from, to - from);
                    bits += self.size;
                } else {
                    fill_range(words, from, to);
                }
            }
        }
    }
}

// Copies `n` bits of a row from a place on to a place of the words, which are 0 there.
#[inline]
fn copy(row: Bits, from: u32, words: &mut Words, to: u32, n: u32) {
    let mut at = 0;
    if from.is_multiple_of(64) && to.is_multiple_of(64) {
        let whole = n / 64;
        row.copy_words(from / 64, &mut words[(to / 64) as usize..][..whole as usize]);
        at = 64 * whole;
    }
    while at < n {
        let (w, shift) = ((to + at) / 64, (to + at) % 64);
        let take = (64 - shift).min(n - at);
        words[w as usize] |= row.bits(from + at, take) << shift;
        at += take;
    }
}

// What up to 64 blocks of a set are, from one on: which are mixed, and which have a member.
struct Looks {
    mixed: u64,
    marked: u64,
    blocks: u32,
}

// Looks at all blocks, 64 at a time.
fn looks(words: &Words, last: u32, size: u32) -> impl Iterator<Item = (u32, Looks)> {
    let count = last.div_ceil(size);
    (0..count).step_by(64).map(move |first| {
        let mut looks = Looks { mixed: 0, marked: 0, blocks: (count - first).min(64) };
        for k in 0..looks.blocks {
            let seen = words.seen((first + k) * size, size);
            looks.mixed |= u64::from(seen.is_mixed()) << k;
            looks.marked |= u64::from(seen.one) << k;
        }
        (first, looks)
    })
}

/// How many blocks of the set are mixed.
pub fn count_mixed(words: &Words, last: u32, size: u32) -> u32 {
    looks(words, last, size).map(|(_, looks)| looks.mixed.count_ones()).sum()
}

/// Writes the parts of a set to memories of just their lengths.
pub fn encode(words: &Words, last: u32, size: u32, parts: [&mut [u8]; 3]) {
    let [mut uniform, mut marked, mut mixed] = parts.map(Writer::new);
    for (first, looks) in looks(words, last, size) {
        uniform.push(!looks.mixed & low(looks.blocks), looks.blocks);
        marked.push(looks.marked, looks.blocks);
        let mut left = looks.mixed;
        while left != 0 {
            push_block(&mut mixed, words, (first + left.trailing_zeros()) * size, size);
            left &= left - 1;
        }
    }
    for row in [uniform, marked, mixed] {
        row.finish();
    }
}

// Writes `n` bits of the set, from a place on.
#[inline]
fn push_block(row: &mut Writer, words: &Words, from: u32, n: u32) {
    let mut at = 0;
    if from.is_multiple_of(64) {
        let whole = n / 64;
        row.push_words(&words[(from / 64) as usize..][..whole as usize]);
        at = 64 * whole;
    }
    while at < n {
        let take = (n - at).min(64);
        row.push(words.bits(from + at, take), take);
        at += take;
    }
}
