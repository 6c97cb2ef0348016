// The parts of a run: what each measures, and the tables that it prints.
pub mod fills;
pub mod growth;
pub mod opening;
pub mod questions;
pub mod round;

use crate::form::Form;
use crate::kind::Kind;
use crate::results::{By, Results, Work};
use crate::table::{self, Table};

/// How the columns name the kinds.
pub fn names(kinds: &[Kind]) -> impl Iterator<Item = String> {
    kinds.iter().map(|kind| kind.name.to_string())
}

/// Our time and that of plain Rust, in one cell.
pub fn both(results: &Results, work: Work, kind: &'static str, form: Form) -> String {
    let [ours, plain] = [By::Ours(form), By::PlainRust(form)].map(|by| table::time(results.time(work, kind, by)));
    table::together([ours, plain])
}

/// A table of a piece of work by kind, with a row for each form, and for each of some libraries.
pub fn print_by_kind(results: &Results, work: Work, kinds: &[Kind], forms: &[Form], libraries: &[By]) {
    let mut times = Table::new("ns", names(kinds));
    let mut ratios = Table::new("ratio", names(kinds));
    for form in forms {
        times.row(form, kinds.iter().map(|kind| both(results, work, kind.name, *form)));
        ratios.row(form, kinds.iter().map(|kind| table::ratio(results.to_plain_rust(work, kind.name, *form))));
    }
    for by in libraries {
        times.row(by, kinds.iter().map(|kind| table::time(results.time(work, kind.name, *by))));
    }
    times.print();
    ratios.print();
}
