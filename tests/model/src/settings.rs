//! What a run is told from outside: the seed and the amount.

use std::env;
use std::ops::Range;

/// Which runs to make.
#[derive(Clone, Copy, Debug)]
pub struct Settings {
    /// MODEL_SEED: the same seed gives the same runs.
    pub seed: u64,
    /// MODEL_FIRST: the number of the first run, to make one run again alone.
    pub first: u64,
    /// MODEL_RUNS: how many runs.
    pub runs: u64,
}

/// The number in a variable of the environment, or the usual one.
fn number(variable: &str, usual: u64) -> Result<u64, String> {
    match env::var(variable) {
        Ok(text) => text.parse().map_err(|_| format!("{variable} is no number: {text}")),
        Err(_) => Ok(usual),
    }
}

impl Settings {
    /// The numbers of the runs.
    pub fn numbers(&self) -> Range<u64> {
        self.first..self.first.saturating_add(self.runs)
    }

    /// The settings from the environment, with this amount as the usual one.
    pub fn from_environment(usual_runs: u64) -> Result<Settings, String> {
        Ok(Settings {
            seed: number("MODEL_SEED", 1)?,
            first: number("MODEL_FIRST", 0)?,
            runs: number("MODEL_RUNS", usual_runs)?,
        })
    }
}
