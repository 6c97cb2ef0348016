//! The free bays and a class of bays.
use crate::calls;
use crate::{Fault, Index};

/// What a round gives when it is closed: the bays handed out, the stretches taken, and the place.
#[derive(Clone, Copy, Debug, Default, PartialEq, Eq, Hash)]
#[repr(C)]
pub struct Report {
    pub handed: u32,
    pub stretches: u32,
    pub place: u32,
}

/// A sheet: common bays, rising, and what the round gave when it was closed after it.
#[derive(Clone, Debug, PartialEq, Eq, Hash)]
pub struct Sheet {
    pub bays: Vec<u32>,
    pub report: Report,
}

/// The free bays and a class of bays. Its last bay is the smaller of the two.
#[derive(Clone, Copy, Debug)]
pub struct Pair<'a> {
    free: &'a Index,
    class: &'a Index,
}

impl<'a> Pair<'a> {
    pub fn new(free: &'a Index, class: &'a Index) -> Pair<'a> {
        Pair { free, class }
    }

    /// The last bay.
    pub fn last(&self) -> u32 {
        self.free.last().min(self.class.last())
    }

    /// The common bays from a place on, at most `most` of them, by a fresh round that goes to the place. Place 0 is refused by 7, and one
    /// beyond the one behind the last bay by 9.
    pub fn sheet(&self, place: u32, most: usize) -> Result<Sheet, Fault> {
        let mut bays = vec![0; most.min(self.last() as usize)];
        let mut report = Report::default();
        calls::sheet(
            self.free.record(),
            self.class.record(),
            place,
            &mut bays,
            &mut report,
        )?;
        bays.truncate(report.handed as usize);
        Ok(Sheet { bays, report })
    }

    /// The free bay nearest to each place, the lower at equal distance; 0 for none, and where the place is 0 or beyond the last bay.
    pub fn nearest(&self, places: &[u32]) -> Vec<u32> {
        let mut answers = vec![0; places.len()];
        calls::nearest(
            self.free.record(),
            self.class.record(),
            places,
            &mut answers,
        )
        .expect("both indexes are lawful");
        answers
    }

    /// How many free bays lie from each first bay to its last one, for as many as both lists have; 0 where they are no bays of the pair.
    pub fn count(&self, firsts: &[u32], lasts: &[u32]) -> Vec<u32> {
        let mut counts = vec![0; firsts.len().min(lasts.len())];
        calls::count(
            self.free.record(),
            self.class.record(),
            firsts,
            lasts,
            &mut counts,
        )
        .expect("both indexes are lawful");
        counts
    }
}
