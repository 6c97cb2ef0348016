//! What the generator knows of the console: the two slots and the round. It keeps the numbers that it writes interesting.

use crate::index::Form;
use crate::sets::Set;

#[derive(Clone)]
pub struct Slot {
    pub set: Set,
    pub form: Form,
    /// The block size, where the form is zombit.
    pub size: u64,
}

pub struct Round {
    pub free: Set,
    pub class: Set,
    pub place: u64,
}

pub struct World {
    pub slots: [Slot; 2],
    pub round: Option<Round>,
}

/// What a lawful command changes.
pub enum Effect {
    Nothing,
    Put(usize, Slot),
    PutBoth(Box<[Slot; 2]>),
    Open,
    Next,
    Sheet(u64),
    Go(u64),
    Close,
}

impl World {
    pub fn new() -> World {
        let slot = Slot { set: Set::empty(1), form: Form::Plain, size: 2 };
        World { slots: [slot.clone(), slot], round: None }
    }

    pub fn apply(&mut self, effect: Effect) {
        match effect {
            Effect::Nothing => {}
            Effect::Put(slot, new) => self.slots[slot] = new,
            Effect::PutBoth(both) => self.slots = *both,
            Effect::Open => {
                let [free, class] = [&self.slots[0], &self.slots[1]].map(|slot| slot.set.clone());
                self.round = Some(Round { free, class, place: 1 });
            }
            Effect::Close => self.round = None,
            Effect::Next => self.walk(1),
            Effect::Sheet(room) => self.walk(room),
            Effect::Go(place) => {
                if let Some(round) = &mut self.round {
                    if place >= round.place && place <= round.last() + 1 {
                        round.place = place;
                    }
                }
            }
        }
    }

    fn walk(&mut self, times: u64) {
        if let Some(round) = &mut self.round {
            for _ in 0..times {
                match round.next_common() {
                    Some(bay) => round.place = bay + 1,
                    None => {
                        round.place = round.last() + 1;
                        return;
                    }
                }
            }
        }
    }
}

impl Round {
    pub fn last(&self) -> u64 {
        self.free.last().min(self.class.last())
    }

    pub fn next_common(&self) -> Option<u64> {
        (self.place..=self.last()).find(|bay| self.common(*bay))
    }

    /// How many common bays lie ahead.
    pub fn ahead(&self) -> u64 {
        (self.place..=self.last()).filter(|bay| self.common(*bay)).count() as u64
    }

    fn common(&self, bay: u64) -> bool {
        self.free.holds(bay) && self.class.holds(bay)
    }
}
