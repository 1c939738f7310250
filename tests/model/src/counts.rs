//! How often each thing was tried, so that a weak generator shows.

use std::collections::BTreeMap;
use std::fmt::{Display, Write};

/// Counts by name or number, and those that must not stay at zero.
#[derive(Clone, Debug)]
pub struct Tally<K> {
    counts: BTreeMap<K, u64>,
}

impl<K: Ord + Copy + Display> Tally<K> {
    /// A tally of these, all at zero; each must occur.
    pub fn of(must_occur: &[K]) -> Tally<K> {
        Tally { counts: must_occur.iter().map(|&key| (key, 0)).collect() }
    }

    /// Counts one more.
    pub fn note(&mut self, key: K) {
        *self.counts.entry(key).or_insert(0) += 1;
    }

    /// Those that must have occurred and have not.
    pub fn never(&self) -> Vec<K> {
        self.counts.iter().filter(|&(_, &count)| count == 0).map(|(&key, _)| key).collect()
    }

    /// All counts in one line: `key×count`.
    pub fn in_one_line(&self) -> String {
        let cells: Vec<String> = self.counts.iter().map(|(key, count)| format!("{key}×{count}")).collect();
        cells.join("  ")
    }

    /// A line for each count.
    pub fn in_lines(&self) -> String {
        let mut text = String::new();
        for (key, count) in &self.counts {
            let _ = writeln!(text, "{count:>10}  {key}");
        }
        text
    }
}

/// For a kind of edit: how often it was tried, and how often that left a valid state.
#[derive(Clone, Copy, Debug, Default)]
pub struct Tried {
    pub times: u64,
    pub valid: u64,
}
