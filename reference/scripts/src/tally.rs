//! Counts the lines of each kind.

use std::collections::BTreeMap;

#[derive(Default)]
pub struct Tally {
    counts: BTreeMap<String, (u64, u64)>,
}

impl Tally {
    pub fn add(&mut self, kind: &str, bytes: usize) {
        if !self.counts.contains_key(kind) {
            self.counts.insert(kind.to_string(), (0, 0));
        }
        if let Some(count) = self.counts.get_mut(kind) {
            count.0 += 1;
            count.1 += bytes as u64;
        }
    }

    /// One row for each kind: how many lines, how many bytes, the kind.
    pub fn report(&self) -> String {
        self.counts.iter().map(|(kind, (lines, bytes))| format!("{lines:8} {bytes:10}  {kind}\n")).collect()
    }
}
