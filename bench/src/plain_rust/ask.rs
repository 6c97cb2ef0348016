// Many answers to one question.
use super::index::{Index, with_index};
use super::set::Set;
use crate::form::{Question, Sort};
use crate::told::{Fault, Stored};

// The answer at each place, in a loop of its own for each question and form.
#[inline]
fn answer_all(places: &[u32], answers: &mut [u32], question: impl Fn(u32) -> u32) {
    for (place, answer) in places.iter().zip(answers) {
        *answer = question(*place);
    }
}

fn ask_set<S: Set>(set: &S, question: Question, sort: Sort, places: &[u32], answers: &mut [u32]) {
    match (question, sort) {
        (Question::Holds, _) => answer_all(places, answers, |i| u32::from(set.holds(i))),
        (Question::Next, Sort::Members) => answer_all(places, answers, |i| set.next(Sort::Members, i).unwrap_or(0)),
        (Question::Next, Sort::Others) => answer_all(places, answers, |i| set.next(Sort::Others, i).unwrap_or(0)),
        (Question::Previous, Sort::Members) => answer_all(places, answers, |i| set.previous(Sort::Members, i).unwrap_or(0)),
        (Question::Previous, Sort::Others) => answer_all(places, answers, |i| set.previous(Sort::Others, i).unwrap_or(0)),
        (Question::Rank, Sort::Members) => answer_all(places, answers, |i| set.rank(Sort::Members, i)),
        (Question::Rank, Sort::Others) => answer_all(places, answers, |i| set.rank(Sort::Others, i)),
        (Question::Select, Sort::Members) => answer_all(places, answers, |n| set.select(Sort::Members, n).unwrap_or(0)),
        (Question::Select, Sort::Others) => answer_all(places, answers, |n| set.select(Sort::Others, n).unwrap_or(0)),
    }
}

/// Opens an index and asks it one question at many places.
pub fn ask(stored: Stored, question: Question, sort: Sort, places: &[u32], answers: &mut [u32]) -> Fault {
    match Index::open(stored) {
        Ok(index) => with_index!(index, set => ask_set(&set, question, sort, places, answers)),
        Err(fault) => return fault,
    }
    Fault::default()
}
