//! What was measured, as a document.

mod calls;
mod goals;
mod markdown;
mod method;
mod program;

use crate::figures::Figures;
use crate::machine;
use crate::program::Timed;
use crate::Rounds;

/// The machine as a table.
fn machine() -> String {
    let rows: Vec<Vec<String>> = machine::facts().into_iter().map(|(name, value)| vec![name.to_string(), value]).collect();
    format!("## Machine\n\n{}", markdown::list(&["what", "which"], &rows))
}

/// The whole document.
pub fn document(names: &[&str], all: &[Figures], scripts: Option<&[Timed]>, rounds: Rounds) -> String {
    let parts = [
        "# Benchmarks\n\nEvery figure here was measured by bench/run. `bench/run --write` measures again and writes this page.\n\n"
            .to_string(),
        goals::goals(all, scripts),
        machine(),
        method::method(all, rounds),
        calls::shapes(names, all),
        calls::growth(names[0], all),
        program::scripts(scripts),
    ];
    format!("{}\n", parts.concat().trim_end())
}
