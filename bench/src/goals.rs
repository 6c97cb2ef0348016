// The goals, and which of them are met.
use crate::foreign::{LIBRARIES, Library};
use crate::form::{Form, Question, Sort};
use crate::kind::{Kind, Pattern};
use crate::parts::{growth, names};
use crate::results::{Results, Work};
use crate::table::{NOTHING, Table, ratio};

/// Counts the goals.
#[derive(Default)]
struct Count {
    met: usize,
    all: usize,
}

impl Count {
    // A cell: what was measured, and whether it meets the goal.
    fn judge(&mut self, measured: Option<f64>, goal: Option<f64>) -> String {
        match (measured, goal) {
            (None, _) => NOTHING.to_string(),
            (_, None) => ratio(measured),
            (Some(value), Some(goal)) => {
                self.all += 1;
                let met = value <= goal;
                self.met += usize::from(met);
                if met { format!("{} met", ratio(measured)) } else { format!("**{} not met**", ratio(measured)) }
            }
        }
    }
}

// A row of the table: what is asked for, and what was measured for each kind.
struct Row<'a> {
    name: String,
    goal: f64,
    measured: &'a dyn Fn(&Kind) -> Option<f64>,
    // The kinds for which the goal holds, and which other goal holds for some.
    holds: &'a dyn Fn(&Kind) -> bool,
}

fn add(table: &mut Table, count: &mut Count, kinds: &[Kind], row: Row) {
    let cells: Vec<String> = kinds.iter().map(|kind| count.judge((row.measured)(kind), (row.holds)(kind).then_some(row.goal))).collect();
    if cells.iter().any(|cell| cell != NOTHING) {
        table.row(row.name, [format!("{:.1}", row.goal)].into_iter().chain(cells));
    }
}

const ALWAYS: &dyn Fn(&Kind) -> bool = &|_| true;

fn is_sparse(kind: &Kind) -> bool {
    kind.pattern == Pattern::Sparse
}

const PLACES: [Question; 3] = [Question::Holds, Question::Next, Question::Previous];
const COUNTS: [Question; 2] = [Question::Rank, Question::Select];

// The questions that a walking set answers, beside the libraries.
fn add_places(table: &mut Table, count: &mut Count, kinds: &[Kind], forms: &[Form], results: &Results) {
    for (form, question) in forms.iter().flat_map(|form| PLACES.map(|question| (*form, question))) {
        let work = Work::Ask(question, Sort::Members);
        let measured = |kind: &Kind| results.to_libraries(work, kind.name, form, &LIBRARIES);
        let goal = if form == Form::Pioneer { 1.0 } else { 0.5 };
        let name = format!("{question}, {form}, to the fastest library");
        add(table, count, kinds, Row { name, goal, measured: &measured, holds: ALWAYS });
    }
}

// The questions that a counting set answers besides.
fn add_counts(table: &mut Table, count: &mut Count, kinds: &[Kind], forms: &[Form], results: &Results) {
    for (form, question) in forms.iter().flat_map(|form| COUNTS.map(|question| (*form, question))) {
        let work = |sort| Work::Ask(question, sort);
        if form == Form::List {
            let measured = |kind: &Kind| results.to_libraries(work(Sort::Members), kind.name, form, &[Library::Roaring]);
            let name = format!("{question}, {form}, to CRoaring");
            add(table, count, kinds, Row { name, goal: 1.0, measured: &measured, holds: &is_sparse });
        } else {
            for (sort, of) in [(Sort::Members, ""), (Sort::Others, " of non-members")] {
                let measured = |kind: &Kind| results.to_plain_rust(work(sort), kind.name, form);
                let name = format!("{question}{of}, {form}, to plain Rust");
                add(table, count, kinds, Row { name, goal: 1.1, measured: &measured, holds: ALWAYS });
            }
        }
    }
}

fn add_openings(table: &mut Table, count: &mut Count, kinds: &[Kind], forms: &[Form], results: &Results) {
    for form in forms {
        let measured = |kind: &Kind| results.to_plain_rust(Work::Open, kind.name, *form);
        add(table, count, kinds, Row { name: format!("opening, {form}, to plain Rust"), goal: 1.2, measured: &measured, holds: ALWAYS });
    }
}

fn add_fills(table: &mut Table, count: &mut Count, kinds: &[Kind], forms: &[Form], results: &Results) {
    for (from, to) in forms.iter().flat_map(|from| forms.iter().map(move |to| (*from, *to))) {
        let measured = |kind: &Kind| results.to_plain_rust(Work::FillFrom(from), kind.name, to);
        add(
            table,
            count,
            kinds,
            Row { name: format!("{from} filled as {to}, to plain Rust"), goal: 1.5, measured: &measured, holds: ALWAYS },
        );
    }
}

fn add_sheets(table: &mut Table, count: &mut Count, kinds: &[Kind], forms: &[Form], results: &Results) {
    for form in forms {
        let measured = |kind: &Kind| results.to_libraries(Work::Sheet, kind.name, *form, &[Library::Roaring]);
        let name = || format!("sheet, {form}, to CRoaring");
        let short = |kind: &Kind| matches!(kind.pattern, Pattern::Sparse | Pattern::Runs);
        let dense = |kind: &Kind| kind.pattern == Pattern::Dense;
        let only = |kinds: &[Kind], holds: &dyn Fn(&Kind) -> bool| kinds.iter().any(holds);
        let without_dense = |kind: &Kind| measured(kind).filter(|_| !dense(kind));
        let with_dense = |kind: &Kind| measured(kind).filter(|_| dense(kind));
        if only(kinds, &short) {
            add(table, count, kinds, Row { name: name(), goal: 1.0, measured: &without_dense, holds: &short });
        }
        if only(kinds, &dense) {
            add(table, count, kinds, Row { name: name(), goal: 3.0, measured: &with_dense, holds: &dense });
        }
    }
}

fn print_growth(count: &mut Count, forms: &[Form], results: &Results) {
    let mut table = Table::new("fill", ["at most", "growth where the bays double"].map(String::from));
    for (from, to) in growth::fills_of(forms) {
        let cell = count.judge(growth::growth(results, from, to), Some(LINEAR));
        if cell != NOTHING {
            table.row(format!("{from} into {to}"), [format!("{LINEAR:.1}"), cell]);
        }
    }
    if !table.is_empty() {
        println!(
            "Linear in the number of bays: a time that doubles with it may grow {LINEAR:.1}-fold here; a square would grow fourfold.\n"
        );
        table.print();
    }
}

/// By how much the time may grow where the bays double, and be called linear.
const LINEAR: f64 = 2.5;

/// Prints the goals, by what was measured.
pub fn print(kinds: &[Kind], forms: &[Form], all_forms: &[Form], results: &Results) {
    let mut count = Count::default();
    let mut table = Table::new("ours", ["at most".to_string()].into_iter().chain(names(kinds)));
    add_places(&mut table, &mut count, kinds, forms, results);
    add_counts(&mut table, &mut count, kinds, forms, results);
    add_openings(&mut table, &mut count, kinds, all_forms, results);
    add_fills(&mut table, &mut count, kinds, all_forms, results);
    add_sheets(&mut table, &mut count, kinds, forms, results);
    println!("### Goals\n");
    println!("Each cell is the ratio that was measured, and whether it is at most the goal; without a word where there is no goal.\n");
    table.print();
    print_growth(&mut count, all_forms, results);
    println!("{} of {} goals are met.", count.met, count.all);
}
