// How the time of a fill grows with the number of bays.
use crate::clock::Pace;
use crate::form::Form;
use crate::garage::Garage;
use crate::kind::{Kind, Pattern};
use crate::parts::{both, fills, names};
use crate::results::{By, Results, Work};
use crate::table::{self, Table};

const fn size(name: &'static str, last: u32) -> Kind {
    Kind { name, last, pattern: Pattern::Dense }
}

/// Dense sets, each of twice as many bays as the one before.
pub const SIZES: [Kind; 4] = [size("8,191", 8_191), size("16,383", 16_383), size("32,767", 32_767), size("65,535", 65_535)];

/// Measures the fills from plain and into plain.
pub fn measure(forms: &[Form], pace: Pace, results: &mut Results) {
    for kind in SIZES {
        let garage = Garage::new(kind);
        fills::measure(&garage, Form::Plain, forms, pace, results);
        for from in forms.iter().filter(|from| **from != Form::Plain) {
            fills::measure(&garage, *from, &[Form::Plain], pace, results);
        }
    }
}

/// The fills that are measured.
pub fn fills_of(forms: &[Form]) -> impl Iterator<Item = (Form, Form)> {
    let into = forms.iter().map(|form| (Form::Plain, *form));
    into.chain(forms.iter().filter(|form| **form != Form::Plain).map(|form| (*form, Form::Plain)))
}

/// By how much the time of a fill of ours grows where the bays double, at most.
pub fn growth(results: &Results, from: Form, to: Form) -> Option<f64> {
    let times: Option<Vec<f64>> = SIZES.iter().map(|size| results.time(Work::FillFrom(from), size.name, By::Ours(to))).collect();
    times?.windows(2).map(|pair| pair[1] / pair[0]).max_by(f64::total_cmp)
}

/// Prints the table.
pub fn print(forms: &[Form], results: &Results) {
    println!("### Fills of more and more bays\n");
    println!(
        "Dense sets. Times are of one fill: ours / plain Rust. The last column is by how much ours grows where the bays double, at most.\n"
    );
    let mut table = Table::new("ns", names(&SIZES).chain(["growth".to_string()]));
    for (from, to) in fills_of(forms) {
        let times = SIZES.iter().map(|size| both(results, Work::FillFrom(from), size.name, to));
        table.row(format!("{from} into {to}"), times.chain([table::ratio(growth(results, from, to))]));
    }
    table.print();
}
