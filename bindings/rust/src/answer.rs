//! What a call answers.

use crate::id::Id;

/// What a step did, or what *whole* says.
///
/// ```
/// use saltbalance::{Answer, Id};
///
/// let granted = Answer::Granted { id: Id(257) };
/// assert_eq!((granted.number(), granted.detail()), (45, 257));
/// ```
#[non_exhaustive]
#[derive(Clone, Copy, Debug, PartialEq, Eq, Hash)]
pub enum Answer {
    /// A call is open: go on.
    Opened,
    /// The look found a free block at this level. Nothing is held yet.
    Found {
        /// The level with a free block.
        level: usize,
    },
    /// The level's list emptied meanwhile: the call looks again.
    Again,
    /// A free block is in hand.
    Taken {
        /// The block in hand.
        id: Id,
    },
    /// The block in hand was split, and its first quarter is in hand.
    Split {
        /// The block in hand.
        id: Id,
    },
    /// The block is the thread's, and the call is closed.
    Granted {
        /// The block that is now held.
        id: Id,
    },
    /// There is no room: the thread is blocked, and nobody runs.
    Waiting,
    /// The block that goes home was merged with its three buddies.
    Merged {
        /// The block in hand.
        id: Id,
    },
    /// The block is free, and the call is closed.
    Settled {
        /// How many waiting threads are ready again.
        woken: usize,
    },
    /// The thread runs.
    Switched,
    /// The clock has risen.
    Ticked {
        /// How many waiting threads are ready because their time is over.
        woken: usize,
    },
    /// All bytes are free and no thread has a call open.
    Whole,
    /// Some byte is not free, or some thread has a call open.
    NotWhole,
    /// The tables are those of a fresh pool.
    Built,
}

impl Answer {
    /// The paper's number of this answer.
    #[must_use]
    pub fn number(self) -> usize {
        match self {
            Answer::Opened => 40,
            Answer::Found { .. } => 41,
            Answer::Again => 42,
            Answer::Taken { .. } => 43,
            Answer::Split { .. } => 44,
            Answer::Granted { .. } => 45,
            Answer::Waiting => 46,
            Answer::Merged { .. } => 47,
            Answer::Settled { .. } => 48,
            Answer::Switched => 49,
            Answer::Ticked { .. } => 50,
            Answer::Whole => 51,
            Answer::NotWhole => 52,
            Answer::Built => 53,
        }
    }

    /// The paper's detail of this answer: a level, an id or a number of threads; 0 where none is named.
    #[must_use]
    pub fn detail(self) -> usize {
        match self {
            Answer::Found { level } => level,
            Answer::Taken { id } | Answer::Split { id } | Answer::Granted { id } | Answer::Merged { id } => id.0 as usize,
            Answer::Settled { woken } | Answer::Ticked { woken } => woken,
            _ => 0,
        }
    }

    /// The answer with this number and detail, if there is one.
    pub(crate) fn from_numbers(number: usize, detail: usize) -> Option<Answer> {
        let id = || u32::try_from(detail).ok().map(Id);
        Some(match number {
            40 => Answer::Opened,
            41 => Answer::Found { level: detail },
            42 => Answer::Again,
            43 => Answer::Taken { id: id()? },
            44 => Answer::Split { id: id()? },
            45 => Answer::Granted { id: id()? },
            46 => Answer::Waiting,
            47 => Answer::Merged { id: id()? },
            48 => Answer::Settled { woken: detail },
            49 => Answer::Switched,
            50 => Answer::Ticked { woken: detail },
            51 => Answer::Whole,
            52 => Answer::NotWhole,
            53 => Answer::Built,
            _ => return None,
        })
    }
}
