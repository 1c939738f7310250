//! The figures of the script program.

use super::markdown::table;
use crate::program::{Part, Timed};
use crate::words::{nanos, ratio, whole};

/// A script's row: its records, the processes, the time for a record without and with the start.
fn row(timed: &Timed) -> Vec<String> {
    let both = |part: Part| [0, 1].map(|program| nanos(timed.process(part, program) / 1000.0));
    let begin = [timed.script.name.to_string(), whole(timed.script.shape.blocks()), whole(timed.script.records())];
    let processes = [both(Part::Whole), both(Part::Half), both(Part::Empty)].concat();
    let record = [nanos(timed.record(0)), nanos(timed.record(1)), ratio(timed.record(0) / timed.record(1))];
    let with_start = [nanos(timed.with_start(0)), ratio(timed.with_start(0) / timed.with_start(1))];
    [&begin[..], &processes, &record, &with_start].concat()
}

/// The columns.
const HEADER: [&str; 14] = [
    "script",
    "blocks",
    "records",
    "proved, µs",
    "C, µs",
    "half: proved, µs",
    "half: C, µs",
    "empty: proved, µs",
    "empty: C, µs",
    "proved, ns for a record",
    "C, ns for a record",
    "proved / C",
    "with its start: proved, ns for a record",
    "with its start: proved / C",
];

/// The table of all scripts, or why there is none.
pub fn scripts(all: Option<&[Timed]>) -> String {
    let begin = "## The script program\n\n";
    let Some(all) = all else {
        return format!("{begin}Not measured: the program was not built.\n\n");
    };
    let rows: Vec<Vec<String>> = all.iter().map(row).collect();
    format!("{begin}{}", table(&HEADER.map(str::to_string), &rows))
}
