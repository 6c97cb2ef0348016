// Tables in Markdown.

/// A table, row by row. It is printed if any cell beside the first column says something.
pub struct Table {
    head: Vec<String>,
    rows: Vec<Vec<String>>,
}

/// What stands where nothing was measured.
pub const NOTHING: &str = "";

impl Table {
    pub fn new(first: &str, columns: impl IntoIterator<Item = String>) -> Table {
        Table { head: std::iter::once(first.to_string()).chain(columns).collect(), rows: Vec::new() }
    }

    /// Adds a row, unless nothing was measured for it.
    pub fn row(&mut self, name: impl ToString, cells: impl IntoIterator<Item = String>) {
        let row: Vec<String> = std::iter::once(name.to_string()).chain(cells).collect();
        if row[1..].iter().any(|cell| cell != NOTHING) {
            self.rows.push(row);
        }
    }

    pub fn is_empty(&self) -> bool {
        self.rows.is_empty()
    }

    /// Prints the table, without the columns of which nothing was measured.
    pub fn print(&self) {
        let used: Vec<usize> = (0..self.head.len()).filter(|at| *at == 0 || self.rows.iter().any(|row| row[*at] != NOTHING)).collect();
        let line = |row: &[String]| println!("| {} |", used.iter().map(|at| row[*at].as_str()).collect::<Vec<_>>().join(" | "));
        line(&self.head);
        println!("|{}", "---|".repeat(used.len()));
        self.rows.iter().for_each(|row| line(row));
        println!();
    }
}

/// A time in nanoseconds, short.
pub fn time(time: Option<f64>) -> String {
    match time {
        None => NOTHING.to_string(),
        Some(time) if time < 100.0 => format!("{time:.1}"),
        Some(time) => grouped(time.round() as u64),
    }
}

// A number with a comma before each three digits.
fn grouped(n: u64) -> String {
    match n {
        0..1000 => n.to_string(),
        _ => format!("{},{:03}", grouped(n / 1000), n % 1000),
    }
}

/// A ratio.
pub fn ratio(ratio: Option<f64>) -> String {
    match ratio {
        None => NOTHING.to_string(),
        Some(ratio) if ratio < 9.95 => format!("{ratio:.2}"),
        Some(ratio) => format!("{ratio:.0}"),
    }
}

/// Two or more cells in one, which is empty if nothing is in any.
pub fn together<const N: usize>(cells: [String; N]) -> String {
    if cells.iter().all(|cell| cell == NOTHING) {
        return NOTHING.to_string();
    }
    cells.map(|cell| if cell == NOTHING { "-".to_string() } else { cell }).join(" / ")
}
