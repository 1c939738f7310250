//! The numbers of refusals and answers.

/// A refusal, by its number in document 01's table.
#[derive(Clone, Copy, Debug, PartialEq, Eq)]
pub struct Refusal(pub usize);

pub const SHAPE_NOT_ALLOWED: Refusal = Refusal(1);
pub const WRONG_LENGTH: Refusal = Refusal(2);
pub const NOT_VALID: Refusal = Refusal(3);
pub const NO_THREAD: Refusal = Refusal(4);
pub const NOT_RUNNING: Refusal = Refusal(5);
pub const IS_BLOCKED: Refusal = Refusal(6);
pub const CALL_OPEN: Refusal = Refusal(7);
pub const NO_CALL: Refusal = Refusal(8);
pub const SIZE_ABOVE_TOP: Refusal = Refusal(9);
pub const WAIT_OUTSIDE: Refusal = Refusal(10);
pub const ID_OUTSIDE: Refusal = Refusal(11);
pub const NOT_ALLOCATED: Refusal = Refusal(12);
pub const NOT_OWNER: Refusal = Refusal(13);
pub const NO_ROOM: Refusal = Refusal(14);
pub const TIMED_OUT: Refusal = Refusal(15);
pub const CLOCK_AT_END: Refusal = Refusal(16);
pub const BAD_RECORD: Refusal = Refusal(17);
pub const OFFSET_OUTSIDE: Refusal = Refusal(18);
pub const ROW_TOO_SHORT: Refusal = Refusal(19);

/// What a step did: its number in document 01's list, and its detail, 0 where none is named.
#[derive(Clone, Copy, Debug, PartialEq, Eq)]
pub struct Answer {
    pub number: usize,
    pub detail: usize,
}

pub const OPENED: usize = 40;
pub const FOUND_LEVEL: usize = 41;
pub const AGAIN: usize = 42;
pub const TAKEN: usize = 43;
pub const SPLIT: usize = 44;
pub const GRANTED: usize = 45;
pub const NOW_WAITING: usize = 46;
pub const MERGED: usize = 47;
pub const SETTLED: usize = 48;
pub const SWITCHED: usize = 49;
pub const TICKED: usize = 50;
pub const WHOLE: usize = 51;
pub const NOT_WHOLE: usize = 52;
pub const BUILT: usize = 53;

/// A step's answer or its refusal.
pub type Outcome = Result<Answer, Refusal>;

/// An answer with a detail.
pub fn with_detail(number: usize, detail: usize) -> Outcome {
    Ok(Answer { number, detail })
}

/// An answer without a detail.
pub fn plain(number: usize) -> Outcome {
    with_detail(number, 0)
}

/// The number and the detail that a caller sees; a refusal of the pool has detail 0.
pub fn number_and_detail(outcome: Outcome) -> (usize, usize) {
    match outcome {
        Ok(answer) => (answer.number, answer.detail),
        Err(refusal) => (refusal.0, 0),
    }
}
