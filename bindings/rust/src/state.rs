//! The states of a block.

use crate::id::Id;

/// The state of a block, with the paper's numbers, which also stand in the table of states.
#[repr(u8)]
#[non_exhaustive]
#[derive(Clone, Copy, Debug, PartialEq, Eq, PartialOrd, Ord, Hash)]
pub enum State {
    /// A thread holds the block.
    Allocated = 0,
    /// The block is free.
    Free = 1,
    /// The block is split into its four quarters.
    Divided = 2,
    /// The block is part of a larger one.
    NoExist = 3,
    /// The block is in hand on its way home.
    Freeing = 4,
    /// The block is in hand on its way to a thread.
    Allocating = 5,
}

/// What *cover* answers: the one undivided block over a byte (see [`View::cover`](crate::View::cover)).
#[derive(Clone, Copy, Debug, PartialEq, Eq, Hash)]
pub struct Covered {
    /// The block.
    pub id: Id,
    /// Its state.
    pub state: State,
}

impl State {
    /// The paper's number of this state.
    #[must_use]
    pub fn number(self) -> u8 {
        self as u8
    }

    /// The state with this number, if there is one.
    ///
    /// ```
    /// use saltbalance::State;
    ///
    /// assert_eq!(State::from_number(5), Some(State::Allocating));
    /// assert_eq!(State::from_number(6), None);
    /// ```
    #[must_use]
    pub fn from_number(number: u8) -> Option<State> {
        Some(match number {
            0 => State::Allocated,
            1 => State::Free,
            2 => State::Divided,
            3 => State::NoExist,
            4 => State::Freeing,
            5 => State::Allocating,
            _ => return None,
        })
    }
}
