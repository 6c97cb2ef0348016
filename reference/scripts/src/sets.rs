//! A set: a last bay, and a yes or a no for each bay up to it.

#[derive(Clone)]
pub struct Set {
    members: Vec<bool>,
}

impl Set {
    pub fn empty(last: u64) -> Set {
        Set { members: vec![false; last as usize] }
    }

    /// The set whose bays, from 1 on, have the given answers.
    pub fn of(members: Vec<bool>) -> Set {
        Set { members }
    }

    pub fn last(&self) -> u64 {
        self.members.len() as u64
    }

    pub fn holds(&self, bay: u64) -> bool {
        bay >= 1 && bay <= self.last() && self.members[bay as usize - 1]
    }

    pub fn put(&mut self, bay: u64, member: bool) {
        self.members[bay as usize - 1] = member;
    }

    pub fn count(&self) -> u64 {
        self.count_to(self.last())
    }

    /// How many members lie from bay 1 to the given one.
    pub fn count_to(&self, bay: u64) -> u64 {
        let end = bay.min(self.last()) as usize;
        self.members[..end].iter().filter(|member| **member).count() as u64
    }

    pub fn bays(&self) -> Vec<u64> {
        (1..=self.last()).filter(|bay| self.holds(*bay)).collect()
    }

    pub fn turned(&self) -> Set {
        Set { members: self.members.iter().map(|member| !member).collect() }
    }

    /// The bays from the first to the last given one, both of them bays of the set.
    pub fn level(&self, first: u64, last: u64) -> Set {
        Set { members: self.members[first as usize - 1..last as usize].to_vec() }
    }

    /// The first bay at or after the given one whose answer is another than that of the bay before it, or the last bay.
    pub fn change_from(&self, bay: u64) -> u64 {
        (bay.max(1)..=self.last())
            .find(|place| self.holds(*place) != self.holds(place - 1))
            .unwrap_or(self.last())
    }
}
