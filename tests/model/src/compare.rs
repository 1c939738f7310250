//! One call on both sides, and where they differ.

use crate::entry::{by_model, After, Entry};
use crate::library::by_library;
use crate::rules::lent::Lent;
use std::fmt::{Debug, Write};

/// Makes a call on both sides. What both left, or a text that shows the inputs and where they differ.
pub fn compared(entry: &Entry, lent: &Lent) -> Result<After, String> {
    let model = by_model(entry, lent);
    let (library, kept) = by_library(entry, lent);
    if kept && model == library {
        return Ok(model);
    }
    let mut text = shown(entry, lent);
    if !kept {
        text.push_str("the library wrote outside a lent table\n");
    }
    text.push_str(&differences(&model, &library));
    Err(text)
}

/// A call and all that is lent to it.
pub fn shown(entry: &Entry, lent: &Lent) -> String {
    let tables = &lent.tables;
    format!(
        "call {entry:?}\n{:?}\n{:?}\nstates {:?}\nowners {:?}\nlists {:?}\ncalls {:?}\nqueue {:?}\n",
        lent.shape, lent.record, tables.states, tables.owners, tables.lists, tables.calls, tables.queue
    )
}

/// Both answers and records, and each place of a table or row at which the sides differ.
fn differences(model: &After, library: &After) -> String {
    let mut text = String::new();
    for (side, after) in [("model", model), ("library", library)] {
        let _ = writeln!(text, "{side}: answer {:?}, {:?}", after.answer, after.record);
    }
    let (ours, theirs) = (&model.tables, &library.tables);
    text.push_str(&places("states", &ours.states, &theirs.states));
    text.push_str(&places("owners", &ours.owners, &theirs.owners));
    text.push_str(&places("lists", &ours.lists, &theirs.lists));
    text.push_str(&places("calls", &ours.calls, &theirs.calls));
    text.push_str(&places("queue", &ours.queue, &theirs.queue));
    text.push_str(&places("row", &model.row, &library.row));
    text
}

/// Each place of one table at which the sides differ.
fn places<T: Debug + PartialEq>(name: &str, model: &[T], library: &[T]) -> String {
    let mut text = String::new();
    for (place, (ours, theirs)) in model.iter().zip(library).enumerate() {
        if ours != theirs {
            let _ = writeln!(text, "{name} at {place}: model {ours:?}, library {theirs:?}");
        }
    }
    text
}
