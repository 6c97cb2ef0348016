//! Chooses what the next line is: single lines of all kinds, and stretches of lines that belong together.

use crate::chance::Chance;
use crate::giants;
use crate::indexes;
use crate::line::Line;
use crate::passed;
use crate::questions;
use crate::rounds;
use crate::spacing;
use crate::unreadable;
use crate::world::World;

/// One line of so many has blanks in odd places.
const ODD_BLANKS: u64 = 14;
const GIANTS: u64 = 20_000;

/// A stretch of lines that belong together.
#[derive(Clone, Copy)]
enum Plan {
    /// Anything.
    Mixed,
    /// Indexes opened, many of them damaged.
    Opens,
    /// A fresh set and fills of it, one over the other.
    Fills(usize),
    /// A pile of turns and levels.
    Pile(usize),
    /// Questions about one set.
    Asks(usize),
    /// A round to its end and past it.
    Walk,
}

pub struct Script {
    chance: Chance,
    world: World,
    plan: Plan,
    /// How many lines of the plan are done, and how many are left.
    done: u64,
    left: u64,
}

impl Script {
    pub fn new(seed: u64) -> Script {
        Script { chance: Chance::new(seed), world: World::new(), plan: Plan::Mixed, done: 0, left: 0 }
    }

    /// The next line without its newline, and its kind.
    pub fn line(&mut self) -> (String, Vec<u8>) {
        if self.chance.one_in(GIANTS) {
            return giants::giant(&mut self.chance);
        }
        match self.chance.below(1_000) {
            0..=9 => return passed::comment(&mut self.chance),
            10..=17 => return passed::blank(&mut self.chance),
            18..=137 => return self.unreadable(),
            _ => {}
        }
        if self.left == 0 {
            self.choose_plan();
        }
        let line = self.planned();
        self.done += 1;
        self.left = self.left.saturating_sub(1);
        let text = spacing::line(&mut self.chance, &line.command, ODD_BLANKS);
        self.world.apply(line.effect);
        (line.kind, text)
    }

    fn unreadable(&mut self) -> (String, Vec<u8>) {
        loop {
            let line = self.any_command();
            let length: usize = line.command.words.iter().map(|word| word.text.len()).sum();
            if length < 200 {
                return unreadable::spoilt(&mut self.chance, &line.command);
            }
        }
    }

    /// A command to be spoilt. It is not carried out.
    fn any_command(&mut self) -> Line {
        let Script { chance, world, .. } = self;
        let slot = chance.below(2) as usize;
        match chance.below(20) {
            0 => indexes::open_lawful(chance, world, slot),
            1 | 2 | 19 => indexes::open_short(chance, slot),
            3 | 4 => indexes::pair_lawful(chance),
            5 | 6 => indexes::fill(chance, world, slot),
            7 => indexes::turn(world, slot),
            8 => indexes::level(chance, world, slot, true),
            9..=13 => questions::ask(chance, world, slot),
            14 => rounds::sheet(chance, world),
            15 => rounds::open(world),
            16 => rounds::close(world),
            _ => rounds::call(chance, world),
        }
    }

    fn choose_plan(&mut self) {
        let chance = &mut self.chance;
        let slot = chance.below(2) as usize;
        let choices = [
            (26, (Plan::Mixed, 10, 40)),
            (24, (Plan::Opens, 4, 20)),
            (14, (Plan::Fills(slot), 3, 9)),
            (12, (Plan::Pile(slot), 4, 12)),
            (22, (Plan::Asks(slot), 5, 25)),
            (14, (Plan::Walk, 8, 60)),
        ];
        let (plan, least, most) = chance.weigh(&choices);
        self.plan = plan;
        self.done = 0;
        self.left = chance.between(least, most);
    }

    fn planned(&mut self) -> Line {
        match self.plan {
            Plan::Mixed => self.mixed(),
            Plan::Opens => self.opens(),
            Plan::Fills(slot) => self.fills(slot),
            Plan::Pile(slot) => self.pile(slot),
            Plan::Asks(slot) => self.asks(slot),
            Plan::Walk => self.walk(),
        }
    }

    fn mixed(&mut self) -> Line {
        let Script { chance, world, .. } = self;
        let slot = chance.below(2) as usize;
        match chance.below(100) {
            0..=7 => indexes::open_lawful(chance, world, slot),
            8..=11 => indexes::open_damaged(chance, world, slot),
            12..=14 => indexes::pair_lawful(chance),
            15..=16 => indexes::pair_damaged(chance),
            17..=24 => indexes::fill(chance, world, slot),
            25..=28 => indexes::turn(world, slot),
            29..=33 => indexes::level(chance, world, slot, false),
            34..=63 => questions::ask(chance, world, slot),
            64..=66 => rounds::open(world),
            67 => rounds::close(world),
            // Where no round is open, calls of one are not needed so often.
            _ if world.round.is_none() && chance.percent(60) => rounds::open(world),
            _ => rounds::call(chance, world),
        }
    }

    fn opens(&mut self) -> Line {
        let Script { chance, world, .. } = self;
        let slot = chance.below(2) as usize;
        match chance.below(100) {
            0..=11 => indexes::open_lawful(chance, world, slot),
            12..=56 => indexes::open_damaged(chance, world, slot),
            57..=61 => indexes::pair_lawful(chance),
            62..=91 => indexes::pair_damaged(chance),
            92..=94 => indexes::fill(chance, world, slot),
            _ => questions::ask(chance, world, slot),
        }
    }

    fn fills(&mut self, slot: usize) -> Line {
        let Script { chance, world, done, .. } = self;
        if *done == 0 {
            return indexes::open_lawful(chance, world, slot);
        }
        match chance.below(100) {
            0..=3 => indexes::turn(world, slot),
            4..=6 => indexes::level(chance, world, slot, true),
            7..=14 => questions::ask(chance, world, slot),
            _ => indexes::fill(chance, world, slot),
        }
    }

    fn pile(&mut self, slot: usize) -> Line {
        let Script { chance, world, done, .. } = self;
        if *done == 0 {
            return indexes::open_lawful(chance, world, slot);
        }
        let good = chance.percent(80);
        match chance.below(100) {
            0..=34 => indexes::turn(world, slot),
            35..=69 => indexes::level(chance, world, slot, good),
            70..=79 => indexes::fill(chance, world, slot),
            _ => questions::ask(chance, world, slot),
        }
    }

    fn asks(&mut self, slot: usize) -> Line {
        let Script { chance, world, done, .. } = self;
        if *done == 0 {
            return indexes::open_lawful(chance, world, slot);
        }
        questions::ask(chance, world, slot)
    }

    fn walk(&mut self) -> Line {
        let Script { chance, world, done, left, .. } = self;
        match done {
            0 if chance.percent(60) => return indexes::pair_lawful(chance),
            0 => return indexes::open_lawful(chance, world, 0),
            1 => return rounds::open(world),
            _ => {}
        }
        if *left == 1 && chance.percent(70) {
            return rounds::close(world);
        }
        if *left == 0 {
            return rounds::next(world);
        }
        let slot = chance.below(2) as usize;
        let over = world.round.as_ref().is_some_and(|round| round.place > round.last());
        if over && chance.one_in(3) {
            // Close and begin anew, once the end was passed.
            self.left = self.left.max(2);
            self.done = 0;
            return rounds::close(&self.world);
        }
        match chance.below(100) {
            0..=44 => rounds::next(world),
            45..=89 => rounds::call(chance, world),
            90 | 91 => indexes::open_lawful(chance, world, slot),
            92 => indexes::turn(world, slot),
            93 => indexes::level(chance, world, slot, true),
            94 => indexes::fill(chance, world, slot),
            95 => rounds::open(world),
            96 => rounds::close(world),
            _ => questions::ask(chance, world, slot),
        }
    }
}
