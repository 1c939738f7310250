//! The nine calls as values, what they reply, and what can make them.

use crate::shape::Shape;
use crate::tables::Tables;

/// A call with its numbers.
#[derive(Clone, Copy, Debug, PartialEq, Eq)]
pub enum Call {
    Build,
    Ask { thread: usize, size: usize, wait: i32 },
    GoOn { thread: usize },
    GiveBack { thread: usize, id: usize },
    Switch { thread: usize },
    Tick,
    Whole,
    Cover { offset: usize },
    Map,
}

/// What a call replies: an answer's number and detail; cover's refusal, id and state; map's refusal and number of blocks.
pub type Reply = [usize; 3];

/// An implementation of the nine calls.
pub trait Pool {
    /// What it is called in the tables of figures.
    fn name(&self) -> &'static str;

    /// Makes a call on these tables.
    fn make(&self, call: Call, shape: Shape, tables: &mut Tables) -> Reply;
}

/// Makes no call: what the harness itself costs.
pub struct Nothing;

impl Pool for Nothing {
    fn name(&self) -> &'static str {
        "nothing"
    }

    #[inline(never)]
    fn make(&self, _: Call, _: Shape, _: &mut Tables) -> Reply {
        [0; 3]
    }
}
