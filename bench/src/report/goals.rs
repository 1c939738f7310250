//! The goals, and by how much those that are not met are missed.

use super::markdown::list;
use crate::figures::Figures;
use crate::goals::{self, Measured};
use crate::program::Timed;
use crate::words::ratio;

/// What was measured for a goal: the worst where all meet it, else each that does not, and by how much.
fn found(all: &[Measured]) -> String {
    let missed: Vec<String> = all
        .iter()
        .filter(|each| !each.met())
        .map(|each| format!("{} {}, which is {} too much", each.what, ratio(each.ratio), ratio(each.ratio - each.goal)))
        .collect();
    let met: Vec<&Measured> = all.iter().filter(|each| each.met()).collect();
    let worst = met.iter().map(|each| each.ratio).fold(0.0, f64::max);
    let rest = format!("{} of {} at most {}", met.len(), all.len(), ratio(worst));
    match (missed.is_empty(), met.is_empty()) {
        (true, _) => rest,
        (false, true) => missed.join("; "),
        (false, false) => format!("{}; {rest}", missed.join("; ")),
    }
}

/// A goal's row.
fn row(goal: String, all: &[Measured]) -> Vec<String> {
    let met = if all.iter().all(Measured::met) { "yes" } else { "no" };
    vec![goal, found(all), met.to_string()]
}

/// The rows of the script program: without what it does at its start, and with it.
fn records(scripts: Option<&[Timed]>) -> [Vec<String>; 2] {
    let goal = format!("a record takes the script program at most {} times a plain C runner's time", goals::RECORD);
    let with_start = "the same, with what the program does at its start".to_string();
    match scripts {
        Some(all) => [row(goal, &goals::records(all, Timed::record)), row(with_start, &goals::records(all, Timed::with_start))],
        None => [goal, with_start].map(|goal| vec![goal, "not measured".to_string(), "-".to_string()]),
    }
}

/// Why the proved code is slower where it is.
const WHY: &str = "Where the proved code is the slower one, this is why:

- **map** has the form that document 01 names: listing a block calls listing its parts, which calls listing a block, a call for each \
block and one for each divided block. Plain C lists in one loop for each divided block.
- **Lists:** marks are bits, and those of the largest level are cleared for each level, so that a call takes little stack.
- **The program's start:** the whole listing is proved as one run of bytes in one buffer that holds the longest listing, and the pages of \
that buffer are touched before the first record is read. Plain C flushes a small buffer.

";

/// The table of goals, and why the proved code is slower where it is.
pub fn goals(calls: &[Figures], scripts: Option<&[Timed]>) -> String {
    let call = format!("a checked call at the largest shape takes at most {} times plain C that makes the same check", goals::CALL);
    let growth =
        format!("a call's time grows linearly: from one shape to the next at most {} times as much as the number of blocks", goals::GROWTH);
    let [record, with_start] = records(scripts);
    let rows = [row(call, &goals::calls(calls)), row(growth, &goals::growth(calls)), record, with_start];
    format!("## Goals\n\n{}{WHY}", list(&["goal", "measured", "met"], &rows))
}
