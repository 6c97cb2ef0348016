// Two sets of a kind, in all forms and libraries that are measured.
use crate::foreign::{Foreign, LIBRARIES, Library};
use crate::form::Form;
use crate::kind::{Kind, Pattern};
use crate::naive::Naive;
use crate::plain_rust;
use crate::told::{Stored, Told};

/// As many bytes as the parts of any index take, and as many numbers.
pub const MOST_BYTES: usize = 3 * 8_704;
pub const MOST_NUMBERS: usize = 65_535;

/// An index in memory of its own.
pub struct Made {
    pub told: Told,
    pub bytes: Vec<u8>,
    pub numbers: Vec<u16>,
}

impl Made {
    // The plain index of a set, made bit by bit.
    fn plain(naive: &Naive) -> Made {
        let length = naive.last.div_ceil(8) as usize;
        let mut bytes = vec![0; length];
        for bay in &naive.members {
            bytes[(bay - 1) as usize / 8] |= 1 << ((bay - 1) % 8);
        }
        let told = Told { form: 0, last: naive.last, number: 0, first: length, second: 0, third: 0 };
        Made { told, bytes, numbers: Vec::new() }
    }

    // The same set in another form.
    fn filled(&self, form: Form) -> Made {
        let (mut bytes, mut numbers) = (vec![0; MOST_BYTES], vec![0; MOST_NUMBERS]);
        let told = plain_rust::fill(self.stored(), form, &mut bytes, &mut numbers).expect("there is room for any index");
        let (bytes_length, numbers_length) = told.lengths();
        bytes.truncate(bytes_length);
        numbers.truncate(numbers_length);
        Made { told, bytes, numbers }
    }

    pub fn stored(&self) -> Stored<'_> {
        Stored { told: self.told, bytes: &self.bytes, numbers: &self.numbers }
    }
}

/// One set, in all forms and libraries.
pub struct Set {
    pub naive: Naive,
    made: Vec<(Form, Made)>,
    foreign: Vec<(Library, Foreign)>,
}

impl Set {
    /// The set of a pattern, for a seed.
    pub fn new(pattern: Pattern, last: u32, seed: u64) -> Set {
        let naive = Naive::new(last, pattern.members(last, seed));
        let plain = Made::plain(&naive);
        let made = Form::all().map(|form| (form, plain.filled(form))).collect();
        let foreign = LIBRARIES.map(|library| (library, Foreign::new(library, last, &naive.members)));
        Set { naive, made, foreign: foreign.into() }
    }

    pub fn made(&self, form: Form) -> &Made {
        let found = self.made.iter().find(|(of, _)| *of == form);
        &found.expect("every form is made").1
    }

    pub fn stored(&self, form: Form) -> Stored<'_> {
        self.made(form).stored()
    }

    pub fn foreign(&self, library: Library) -> &Foreign {
        let found = self.foreign.iter().find(|(of, _)| *of == library);
        &found.expect("every library has the set").1
    }
}

/// The two sets of a kind.
pub struct Garage {
    pub kind: Kind,
    pub free: Set,
    pub class: Set,
}

impl Garage {
    pub fn new(kind: Kind) -> Garage {
        let free = Set::new(kind.pattern, kind.last, 1);
        let class = Set::new(kind.pattern, kind.last, 2);
        Garage { kind, free, class }
    }
}
