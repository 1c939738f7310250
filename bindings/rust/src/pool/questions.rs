//! The questions to a pool that owns its tables.

use super::Pool;
use crate::answer::Answer;
use crate::id::Id;
use crate::questions::{Bytes, Keeper};
use crate::refusal::Refusal;
use crate::state::Covered;
use alloc::vec;
use alloc::vec::Vec;

/// The questions. *Whole*, *cover* and *map* are proved; those that follow them are as [`View`](crate::View) has them, and are not.
impl Pool {
    /// Whole: [`Answer::Whole`] exactly when all bytes are free and no thread has a call open, else [`Answer::NotWhole`].
    ///
    /// ```
    /// # use saltbalance::{Answer, Millis, Pool, Refusal, Shape};
    /// let mut pool = Pool::build(Shape { pool: 1, threads: 2, levels: 2, tops: 1, top_size: 64 })?;
    /// assert_eq!(pool.whole(), Ok(Answer::Whole));
    /// pool.switch(0)?;
    /// pool.ask(0, 16, Millis::NONE)?;
    /// assert_eq!(pool.whole(), Ok(Answer::NotWhole));
    /// # Ok::<(), Refusal>(())
    /// ```
    pub fn whole(&self) -> Result<Answer, Refusal> {
        self.tables().whole(self.device, self.shape)
    }

    /// Whether *whole* answers [`Answer::Whole`]: everything has come home. Whole is not complete: a light asks this last, as the
    /// crate's first page says.
    #[must_use]
    pub fn is_whole(&self) -> bool {
        self.whole() == Ok(Answer::Whole)
    }

    /// Cover: the one undivided block over a byte of the pool, with its state. Refused with 18.
    ///
    /// ```
    /// # use saltbalance::{Covered, Id, Pool, Refusal, Shape, State};
    /// let pool = Pool::build(Shape { pool: 1, threads: 2, levels: 2, tops: 2, top_size: 64 })?;
    /// assert_eq!(pool.cover(127), Ok(Covered { id: Id(4097), state: State::Free }));
    /// assert_eq!(pool.cover(128), Err(Refusal::OffsetOutside));
    /// # Ok::<(), Refusal>(())
    /// ```
    pub fn cover(&self, offset: usize) -> Result<Covered, Refusal> {
        self.tables().cover(self.device, self.shape, offset)
    }

    /// Map: the ids of all undivided blocks by address. Each begins where the last ended, and their sizes sum to the pool.
    ///
    /// ```
    /// # use saltbalance::{Answer, Id, Millis, Pool, Refusal, Shape};
    /// let mut pool = Pool::build(Shape { pool: 1, threads: 2, levels: 2, tops: 2, top_size: 64 })?;
    /// assert_eq!(pool.map()?, [Id(1), Id(4097)]);
    ///
    /// // A top block is split for a quarter of it, and is then listed as its four quarters.
    /// pool.switch(0)?;
    /// pool.ask(0, 16, Millis::NONE)?;
    /// while !matches!(pool.go_on(0)?, Answer::Granted { .. }) {}
    /// assert_eq!(pool.map()?, [Id(257), Id(4353), Id(8449), Id(12545), Id(4097)]);
    /// # Ok::<(), Refusal>(())
    /// ```
    pub fn map(&self) -> Result<Vec<Id>, Refusal> {
        let mut row = vec![Id::default(); self.states.len()];
        let blocks = self.tables().map(self.device, self.shape, &mut row)?;
        row.truncate(blocks);
        Ok(row)
    }

    /// As [`View::free_bytes`](crate::View::free_bytes).
    pub fn free_bytes(&self) -> Result<usize, Refusal> {
        self.tables().free_bytes(self.device, self.shape)
    }

    /// As [`View::bytes_by_state`](crate::View::bytes_by_state).
    pub fn bytes_by_state(&self) -> Result<Bytes, Refusal> {
        self.tables().bytes_by_state(self.device, self.shape)
    }

    /// As [`View::largest_size`](crate::View::largest_size).
    pub fn largest_size(&self) -> Result<Option<usize>, Refusal> {
        self.tables().largest_size(self.device, self.shape)
    }

    /// As [`View::held_bytes`](crate::View::held_bytes).
    pub fn held_bytes(&self, thread: usize) -> Result<usize, Refusal> {
        self.tables().held_bytes(self.device, self.shape, thread)
    }

    /// As [`View::keeper`](crate::View::keeper).
    ///
    /// ```
    /// # use saltbalance::{Answer, Keeper, Millis, Pool, Refusal, Shape};
    /// let mut pool = Pool::build(Shape { pool: 1, threads: 2, levels: 2, tops: 1, top_size: 64 })?;
    /// assert_eq!(pool.keeper()?, None);
    /// pool.switch(1)?;
    /// pool.ask(1, 16, Millis::NONE)?;
    /// assert_eq!(pool.keeper()?, Some(Keeper::Call { thread: 1 }));
    /// # Ok::<(), Refusal>(())
    /// ```
    pub fn keeper(&self) -> Result<Option<Keeper>, Refusal> {
        self.tables().keeper(self.device, self.shape)
    }
}
