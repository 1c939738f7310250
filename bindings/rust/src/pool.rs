//! A pool that owns its tables.

mod questions;

use crate::answer::Answer;
use crate::device::{Device, Millis};
use crate::id::Id;
use crate::refusal::Refusal;
use crate::shape::Shape;
use crate::tables::{Tables, View};
use alloc::vec;
use alloc::vec::Vec;

/// A pool that owns its tables and its record.
///
/// Nobody else can write into its tables, so of the refusals 1 to 3 it meets only [`Refusal::ShapeNotAllowed`], when it is built. It
/// owns no buffers: an [`Id`] says which part of the caller's memory a block is.
///
/// ```
/// use saltbalance::{Answer, Millis, Pool, Refusal, Shape};
///
/// # fn main() -> Result<(), Refusal> {
/// let mut pool = Pool::build(Shape { pool: 1, threads: 2, levels: 2, tops: 1, top_size: 64 })?;
/// pool.switch(0)?;
/// pool.ask(0, 64, Millis::NONE)?;
/// let held = loop {
///     if let Answer::Granted { id } = pool.go_on(0)? {
///         break id;
///     }
/// };
///
/// // All 64 bytes are held. Thread 1 would wait two ticks for some, and is blocked until then.
/// pool.switch(1)?;
/// pool.ask(1, 16, Millis(20))?;
/// assert_eq!(pool.go_on(1)?, Answer::Waiting);
/// assert_eq!(pool.switch(1), Err(Refusal::IsBlocked));
/// assert_eq!(pool.tick()?, Answer::Ticked { woken: 0 });
/// assert_eq!(pool.tick()?, Answer::Ticked { woken: 1 });
///
/// // Its time is over, and there still is no room: its call is closed.
/// pool.switch(1)?;
/// assert_eq!(pool.go_on(1), Err(Refusal::TimedOut));
///
/// // Only its owner gives a block back.
/// assert_eq!(pool.give_back(1, held), Err(Refusal::NotOwner));
/// # Ok(())
/// # }
/// ```
#[derive(Clone, Debug, PartialEq, Eq)]
pub struct Pool {
    shape: Shape,
    device: Device,
    states: Vec<u8>,
    owners: Vec<u8>,
    lists: Vec<u16>,
    calls: Vec<u64>,
    queue: Vec<u8>,
}

impl Pool {
    /// A fresh pool: all bytes free, no call open, clock 0, nobody running. Refused with [`Refusal::ShapeNotAllowed`].
    ///
    /// ```
    /// use saltbalance::{Pool, Refusal, Shape};
    ///
    /// let shape = Shape { pool: 1, threads: 9, levels: 2, tops: 1, top_size: 64 };
    /// assert_eq!(Pool::build(shape), Err(Refusal::ShapeNotAllowed));
    /// assert!(Pool::build(Shape { threads: 8, ..shape }).is_ok());
    /// ```
    pub fn build(shape: Shape) -> Result<Pool, Refusal> {
        let lengths = shape.lengths()?;
        let mut pool = Pool {
            shape,
            device: Device::default(),
            states: vec![0; lengths.states],
            owners: vec![0; lengths.owners],
            lists: vec![0; lengths.lists],
            calls: vec![0; lengths.calls],
            queue: vec![0; lengths.queue],
        };
        let (device, mut tables) = pool.lend();
        tables.build(device, shape)?;
        Ok(pool)
    }

    /// The record and the tables, lent to one call.
    fn lend(&mut self) -> (&mut Device, Tables<'_>) {
        let tables = Tables {
            states: &mut self.states,
            owners: &mut self.owners,
            lists: &mut self.lists,
            calls: &mut self.calls,
            queue: &mut self.queue,
        };
        (&mut self.device, tables)
    }

    /// Ask: the running thread asks for a block of at least this size (0: the smallest block), and says how long it would wait.
    ///
    /// Answers [`Answer::Opened`]: now [`go_on`](Pool::go_on). Refused with 4, 5, 7, 9 or 10.
    ///
    /// ```
    /// # use saltbalance::{Answer, Millis, Pool, Refusal, Shape};
    /// let mut pool = Pool::build(Shape { pool: 1, threads: 2, levels: 2, tops: 1, top_size: 64 })?;
    /// assert_eq!(pool.ask(0, 16, Millis::NONE), Err(Refusal::NotRunning));
    /// pool.switch(0)?;
    /// assert_eq!(pool.ask(0, 65, Millis::NONE), Err(Refusal::SizeAboveTop));
    /// assert_eq!(pool.ask(0, 16, Millis(600_001)), Err(Refusal::WaitOutside));
    /// assert_eq!(pool.ask(0, 16, Millis(11)), Ok(Answer::Opened));
    /// assert_eq!(pool.tables().calls[3], 2); // the deadline: two ticks from clock 0
    /// assert_eq!(pool.ask(0, 16, Millis::NONE), Err(Refusal::CallOpen));
    /// # Ok::<(), Refusal>(())
    /// ```
    pub fn ask(&mut self, thread: usize, size: usize, wait: Millis) -> Result<Answer, Refusal> {
        let shape = self.shape;
        let (device, mut tables) = self.lend();
        tables.ask(*device, shape, thread, size, wait)
    }

    /// Go on: the running thread's call makes its next step.
    ///
    /// A request answers found, again, taken, split, granted or waiting; a block that goes home merged or settled.
    /// [`Refusal::NoRoom`] and [`Refusal::TimedOut`] close the call. Refused too with 4, 5 or 8.
    ///
    /// ```
    /// # use saltbalance::{Answer, Id, Millis, Pool, Refusal, Shape};
    /// let mut pool = Pool::build(Shape { pool: 1, threads: 2, levels: 2, tops: 1, top_size: 64 })?;
    /// pool.switch(0)?;
    /// assert_eq!(pool.go_on(0), Err(Refusal::NoCall));
    /// pool.ask(0, 16, Millis::NONE)?;
    /// assert_eq!(pool.go_on(0)?, Answer::Found { level: 0 });
    /// assert_eq!(pool.go_on(0)?, Answer::Taken { id: Id(1) });
    /// assert_eq!(pool.go_on(0)?, Answer::Split { id: Id(257) });
    /// assert_eq!(pool.go_on(0)?, Answer::Granted { id: Id(257) });
    /// # Ok::<(), Refusal>(())
    /// ```
    #[must_use = "a granted block's id stands in the answer"]
    pub fn go_on(&mut self, thread: usize) -> Result<Answer, Refusal> {
        let shape = self.shape;
        let (device, mut tables) = self.lend();
        tables.go_on(device, shape, thread)
    }

    /// Give back: the running thread gives back a block that it holds.
    ///
    /// Answers [`Answer::Opened`]: now [`go_on`](Pool::go_on) until [`Answer::Settled`]. Refused with 4, 5, 7, 11, 12 or 13.
    ///
    /// ```
    /// # use saltbalance::{Answer, Id, Pool, Refusal, Shape};
    /// let mut pool = Pool::build(Shape { pool: 1, threads: 2, levels: 2, tops: 1, top_size: 64 })?;
    /// pool.switch(0)?;
    /// assert_eq!(pool.give_back(0, Id(2)), Err(Refusal::IdOutside));
    /// assert_eq!(pool.give_back(0, Id(1)), Err(Refusal::NotAllocated));
    /// # Ok::<(), Refusal>(())
    /// ```
    pub fn give_back(&mut self, thread: usize, id: Id) -> Result<Answer, Refusal> {
        let shape = self.shape;
        let (device, mut tables) = self.lend();
        tables.give_back(*device, shape, thread, id)
    }

    /// Switch: this thread runs from now on; the one before stays ready. Refused with 4, or with 6 for a thread that waits.
    ///
    /// ```
    /// # use saltbalance::{Pool, Refusal, Shape};
    /// let mut pool = Pool::build(Shape { pool: 1, threads: 2, levels: 2, tops: 1, top_size: 64 })?;
    /// assert_eq!(pool.device().thread(), None);
    /// pool.switch(1)?;
    /// assert_eq!(pool.device().thread(), Some(1));
    /// assert_eq!(pool.switch(2), Err(Refusal::NoThread));
    /// # Ok::<(), Refusal>(())
    /// ```
    pub fn switch(&mut self, thread: usize) -> Result<Answer, Refusal> {
        let shape = self.shape;
        let (device, tables) = self.lend();
        tables.switch(device, shape, thread)
    }

    /// Tick: the clock rises by one tick of 10 milliseconds, and threads whose deadline it is are ready. Refused with 16.
    ///
    /// ```
    /// # use saltbalance::{Answer, Pool, Refusal, Shape};
    /// let mut pool = Pool::build(Shape { pool: 1, threads: 2, levels: 2, tops: 1, top_size: 64 })?;
    /// assert_eq!(pool.tick()?, Answer::Ticked { woken: 0 });
    /// assert_eq!(pool.device().clock, 1);
    /// # Ok::<(), Refusal>(())
    /// ```
    pub fn tick(&mut self) -> Result<Answer, Refusal> {
        let shape = self.shape;
        let (device, mut tables) = self.lend();
        tables.tick(device, shape)
    }

    /// The shape.
    #[must_use]
    pub fn shape(&self) -> &Shape {
        &self.shape
    }

    /// The record of clock and running thread.
    #[must_use]
    pub fn device(&self) -> &Device {
        &self.device
    }

    /// The tables, for reading.
    ///
    /// ```
    /// # use saltbalance::{Pool, Refusal, Shape, State};
    /// let pool = Pool::build(Shape { pool: 1, threads: 2, levels: 2, tops: 1, top_size: 64 })?;
    /// let states = pool.tables().states;
    /// assert_eq!(states[0], State::Free.number());
    /// assert!(states[1..].iter().all(|&state| state == State::NoExist.number()));
    /// # Ok::<(), Refusal>(())
    /// ```
    #[must_use]
    pub fn tables(&self) -> View<'_> {
        View { states: &self.states, owners: &self.owners, lists: &self.lists, calls: &self.calls, queue: &self.queue }
    }
}
