// The kinds of sets that are measured.
use crate::random::Random;

/// How the members lie.
#[derive(Clone, Copy, PartialEq, Eq, Debug)]
pub enum Pattern {
    /// Each bay at random, one of two.
    Dense,
    /// Each bay at random, one of a hundred.
    Sparse,
    /// Runs of members and of non-members in turn, each of 1 to 199 bays.
    Runs,
    Full,
    Empty,
}

/// A kind of sets: the last bay, and how the members lie.
#[derive(Clone, Copy, PartialEq, Eq, Debug)]
pub struct Kind {
    pub name: &'static str,
    pub last: u32,
    pub pattern: Pattern,
}

const fn kind(name: &'static str, last: u32, pattern: Pattern) -> Kind {
    Kind { name, last, pattern }
}

pub const KINDS: [Kind; 8] = [
    kind("dense", 65_535, Pattern::Dense),
    kind("sparse", 65_535, Pattern::Sparse),
    kind("runs", 65_535, Pattern::Runs),
    kind("full", 65_535, Pattern::Full),
    kind("empty", 65_535, Pattern::Empty),
    kind("dense-4000", 4_000, Pattern::Dense),
    kind("sparse-4000", 4_000, Pattern::Sparse),
    kind("runs-4000", 4_000, Pattern::Runs),
];

fn runs(last: u32, random: &mut Random) -> Vec<u32> {
    let mut members = Vec::new();
    let mut bay = random.upto(199);
    while bay <= last {
        let behind = bay + random.upto(199);
        members.extend(bay..behind.min(last + 1));
        bay = behind + random.upto(199);
    }
    members
}

impl Pattern {
    /// The members of a set of `last` bays, for a seed.
    pub fn members(self, last: u32, seed: u64) -> Vec<u32> {
        let mut random = Random(seed);
        match self {
            Pattern::Dense => (1..=last).filter(|_| random.upto(2) == 1).collect(),
            Pattern::Sparse => (1..=last).filter(|_| random.upto(100) == 1).collect(),
            Pattern::Runs => runs(last, &mut random),
            Pattern::Full => (1..=last).collect(),
            Pattern::Empty => Vec::new(),
        }
    }
}
