// What a run measures, by the words of its command line.
use crate::clock::Pace;
use crate::form::{Form, QUESTIONS, Question};
use crate::kind::{KINDS, Kind};

#[derive(Clone, Copy, PartialEq, Eq, Debug)]
pub enum Part {
    Members,
    Others,
    Opening,
    Fills,
    Growth,
    Sheet,
    Nearest,
    Count,
}

const PARTS: [(&str, Part); 8] = [
    ("members", Part::Members),
    ("others", Part::Others),
    ("opening", Part::Opening),
    ("fills", Part::Fills),
    ("growth", Part::Growth),
    ("sheet", Part::Sheet),
    ("nearest", Part::Nearest),
    ("count", Part::Count),
];

/// A full run: a sample takes two milliseconds.
const FULL: Pace = Pace { sample: 2e6, samples: 7 };

/// A quick one, for a first look.
const QUICK: Pace = Pace { sample: 3e5, samples: 5 };

/// What is chosen.
pub struct Choice {
    pub pace: Pace,
    pub parts: Vec<Part>,
    pub forms: Vec<Form>,
    pub kinds: Vec<Kind>,
    pub questions: Vec<Question>,
}

// The words of a form: its name, and of zombit the name with the block size.
fn names_form(word: &str, form: Form) -> bool {
    match form {
        Form::Zombit(size) => word == "zombit" || word == format!("zombit{size}"),
        _ => word == form.to_string(),
    }
}

// Those that are chosen; all, if none is.
fn or_all<T>(chosen: Vec<T>, all: impl IntoIterator<Item = T>) -> Vec<T> {
    if chosen.is_empty() { all.into_iter().collect() } else { chosen }
}

impl Choice {
    /// What the words choose, or the first that means nothing.
    pub fn of(words: &[String]) -> Result<Choice, String> {
        let (mut pace, mut parts, mut forms, mut kinds, mut questions) = (FULL, vec![], vec![], vec![], vec![]);
        for word in words {
            let before = parts.len() + forms.len() + kinds.len() + questions.len();
            parts.extend(PARTS.iter().filter(|(name, _)| name == word).map(|(_, part)| *part));
            forms.extend(Form::all().filter(|form| names_form(word, *form)));
            kinds.extend(KINDS.iter().filter(|kind| kind.name == word));
            questions.extend(QUESTIONS.iter().filter(|question| question.to_string() == *word));
            if word == "quick" {
                pace = QUICK;
            } else if before == parts.len() + forms.len() + kinds.len() + questions.len() {
                return Err(word.clone());
            }
        }
        if parts.is_empty() && !questions.is_empty() {
            parts = vec![Part::Members, Part::Others];
        }
        Ok(Choice {
            pace,
            parts: or_all(parts, PARTS.map(|(_, part)| part)),
            forms: or_all(forms, Form::all()),
            kinds: or_all(kinds, KINDS),
            questions: or_all(questions, QUESTIONS),
        })
    }

    pub fn has(&self, part: Part) -> bool {
        self.parts.contains(&part)
    }

    /// The chosen forms of which everything is measured.
    pub fn main_forms(&self) -> Vec<Form> {
        let forms = &self.forms;
        let main: Vec<Form> = forms.iter().filter(|form| crate::form::FORMS.contains(form)).copied().collect();
        if main.is_empty() { forms.clone() } else { main }
    }
}
