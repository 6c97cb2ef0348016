// What every answer must be, from the members and the non-members as two lists: slow and obvious.
use crate::form::{Question, Sort};
use crate::told::Report;

/// A set as its members and its non-members.
pub struct Naive {
    pub last: u32,
    pub members: Vec<u32>,
    pub others: Vec<u32>,
}

impl Naive {
    pub fn new(last: u32, members: Vec<u32>) -> Naive {
        let others = (1..=last).filter(|bay| members.binary_search(bay).is_err()).collect();
        Naive { last, members, others }
    }

    fn bays(&self, sort: Sort) -> &[u32] {
        match sort {
            Sort::Members => &self.members,
            Sort::Others => &self.others,
        }
    }

    /// The answer to a question, where 0 stands for none and for no.
    pub fn answer(&self, question: Question, sort: Sort, i: u32) -> u32 {
        let bays = self.bays(sort);
        let upto = bays.partition_point(|bay| *bay <= i);
        let nth = |n: usize| n.checked_sub(1).and_then(|place| bays.get(place)).copied().unwrap_or(0);
        match question {
            Question::Holds => u32::from(self.members.binary_search(&i).is_ok()),
            Question::Next => nth(bays.partition_point(|bay| *bay < i) + 1),
            Question::Previous => nth(upto),
            Question::Rank => upto as u32,
            Question::Select => nth(i as usize),
        }
    }

    /// The member nearest to a place up to the last bay, the lower at equal distance.
    pub fn nearest(&self, place: u32) -> u32 {
        if place == 0 || place > self.last {
            return 0;
        }
        let nearer = |bay: &&u32| (bay.abs_diff(place), **bay);
        self.members.iter().min_by_key(nearer).copied().unwrap_or(0)
    }

    /// How many members lie from one bay to another.
    pub fn count(&self, first: u32, last: u32) -> u32 {
        self.members.iter().filter(|bay| (first..=last).contains(bay)).count() as u32
    }
}

/// A sheet of so many bays from `place` on, stretch by stretch, as `docs/ROUND.md` says.
pub fn sheet(free: &Naive, class: &Naive, place: u32, room: usize) -> (Vec<u32>, Report) {
    let last = free.last.min(class.last);
    let mut bays = Vec::new();
    let mut report = Report { handed: 0, stretches: 0, place };
    while bays.len() < room && report.place <= last {
        let p = report.place;
        let next = |set: &Naive| match set.answer(Question::Next, Sort::Members, p) {
            0 => last + 1,
            bay => bay.min(last + 1),
        };
        let end = next(free).max(next(class));
        report.stretches += 1;
        if end == p {
            bays.push(p);
            report.handed += 1;
        }
        report.place = end.max(p + 1);
    }
    (bays, report)
}
