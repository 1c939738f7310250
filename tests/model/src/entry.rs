//! An entry point of the pool with its arguments, and what it leaves behind.

use crate::rules::answers::{number_and_detail, Outcome};
use crate::rules::lent::{Lent, Record, Tables};
use crate::rules::{calls, go_on, questions};

/// An entry point with its arguments: any numbers at all.
#[derive(Clone, Debug, PartialEq, Eq)]
pub enum Entry {
    Build,
    Ask { thread: usize, size: usize, wait: i32 },
    GoOn { thread: usize },
    GiveBack { thread: usize, id: usize },
    Switch { thread: usize },
    Tick,
    Whole,
    Cover { offset: usize },
    Map { row: Vec<u32> },
}

/// The entry points' names, in the order of `Entry::kind`.
pub const KINDS: [&str; 9] =
    ["build", "ask", "go on", "give back", "switch", "tick", "whole", "cover", "map"];

impl Entry {
    /// Which entry point this is: a place in `KINDS`.
    pub fn kind(&self) -> usize {
        match self {
            Entry::Build => 0,
            Entry::Ask { .. } => 1,
            Entry::GoOn { .. } => 2,
            Entry::GiveBack { .. } => 3,
            Entry::Switch { .. } => 4,
            Entry::Tick => 5,
            Entry::Whole => 6,
            Entry::Cover { .. } => 7,
            Entry::Map { .. } => 8,
        }
    }
}

/// What a call answered, and all that was lent as it stands afterwards.
#[derive(Clone, Debug, PartialEq, Eq)]
pub struct After {
    /// Number and detail; for cover refusal, id and state; for map refusal and number of blocks.
    pub answer: [usize; 3],
    pub record: Record,
    pub tables: Tables,
    /// The row lent to map; empty for the others.
    pub row: Vec<u32>,
}

/// What the model makes of this call.
pub fn by_model(entry: &Entry, lent: &Lent) -> After {
    let mut lent = lent.clone();
    let mut row = Vec::new();
    let answer = match entry {
        Entry::Build => two(calls::build(&mut lent)),
        &Entry::Ask { thread, size, wait } => two(calls::ask(&mut lent, thread, size, wait)),
        &Entry::GoOn { thread } => two(go_on::go_on(&mut lent, thread)),
        &Entry::GiveBack { thread, id } => two(calls::give_back(&mut lent, thread, id)),
        &Entry::Switch { thread } => two(calls::switch(&mut lent, thread)),
        Entry::Tick => two(calls::tick(&mut lent)),
        Entry::Whole => two(questions::whole(&lent)),
        &Entry::Cover { offset } => match questions::cover(&lent, offset) {
            Ok(block) => [0, block.id, block.state.into()],
            Err(refusal) => [refusal.0, 0, 0],
        },
        Entry::Map { row: before } => {
            row.clone_from(before);
            match questions::map(&lent, &mut row) {
                Ok(blocks) => [0, blocks, 0],
                Err(refusal) => [refusal.0, 0, 0],
            }
        }
    };
    After { answer, record: lent.record, tables: lent.tables, row }
}

/// A step's number and detail in the answer's first two places.
fn two(outcome: Outcome) -> [usize; 3] {
    let (number, detail) = number_and_detail(outcome);
    [number, detail, 0]
}
