//! The calls on tables that the caller lends.

use crate::answer::Answer;
use crate::boundary;
use crate::device::{Device, Millis};
use crate::id::Id;
use crate::refusal::Refusal;
use crate::shape::Shape;
use crate::state::Covered;

/// The five tables of a pool, lent to its calls.
///
/// This is the form for firmware that keeps its tables where it likes. The pool has no memory of its own: hand the same tables, record
/// and shape to each call. Any lengths and contents may be lent; what is not valid is refused, and nothing is altered.
/// [`Shape::lengths`] gives the lengths that are right.
///
/// ```
/// use saltbalance::{Answer, Device, Millis, Refusal, Shape, Tables};
///
/// let shape = Shape { pool: 1, threads: 2, levels: 2, tops: 1, top_size: 64 };
/// let mut device = Device::default();
/// let (mut states, mut owners, mut lists) = ([0u8; 5], [0u8; 5], [0u16; 7]);
/// let (mut calls, mut queue) = ([0u64; 12], [0u8; 3]);
/// let mut tables = Tables {
///     states: &mut states,
///     owners: &mut owners,
///     lists: &mut lists,
///     calls: &mut calls,
///     queue: &mut queue,
/// };
///
/// assert_eq!(tables.build(&mut device, shape), Ok(Answer::Built));
/// assert_eq!(tables.switch(&mut device, shape, 0), Ok(Answer::Switched));
/// assert_eq!(tables.ask(device, shape, 0, 16, Millis::NONE), Ok(Answer::Opened));
/// assert_eq!(tables.go_on(&mut device, shape, 0), Ok(Answer::Found { level: 0 }));
///
/// // A state that does not exist, written by somebody else: refused, and nothing is altered.
/// tables.states[4] = 9;
/// assert_eq!(tables.go_on(&mut device, shape, 0), Err(Refusal::NotValid));
/// ```
#[derive(Debug, PartialEq, Eq)]
pub struct Tables<'a> {
    /// A state for each block: level 0 first, each level's blocks together.
    pub states: &'a mut [u8],
    /// The owner of each block, in the order of the states: 0 for nobody, t + 1 for thread t.
    pub owners: &'a mut [u8],
    /// The length of each level's free list, then each list with zeros behind its end.
    pub lists: &'a mut [u16],
    /// Six cells for each thread: stage, size, kind of wait, deadline, level, block.
    pub calls: &'a mut [u64],
    /// The number of waiting threads, then these in order, then zeros.
    pub queue: &'a mut [u8],
}

/// The five tables of a pool, lent for reading: enough for the questions.
///
/// ```
/// use saltbalance::{Answer, Device, Id, Refusal, Shape, State, View};
///
/// let shape = Shape { pool: 1, threads: 1, levels: 1, tops: 2, top_size: 64 };
/// let device = Device::default();
///
/// // Block 0 is thread 0's, block 1 is free.
/// let view = View { states: &[0, 1], owners: &[1, 0], lists: &[1, 1, 0], calls: &[0; 6], queue: &[0; 2] };
/// assert_eq!(view.whole(device, shape), Ok(Answer::NotWhole));
/// assert_eq!(view.cover(device, shape, 0)?.state, State::Allocated);
/// let mut row = [Id::default(); 2];
/// assert_eq!(view.map(device, shape, &mut row), Ok(2));
/// assert_eq!(row, [Id(1), Id(4097)]);
/// # Ok::<(), Refusal>(())
/// ```
#[derive(Clone, Copy, Debug, PartialEq, Eq)]
pub struct View<'a> {
    /// A state for each block: level 0 first, each level's blocks together.
    pub states: &'a [u8],
    /// The owner of each block, in the order of the states: 0 for nobody, t + 1 for thread t.
    pub owners: &'a [u8],
    /// The length of each level's free list, then each list with zeros behind its end.
    pub lists: &'a [u16],
    /// Six cells for each thread: stage, size, kind of wait, deadline, level, block.
    pub calls: &'a [u64],
    /// The number of waiting threads, then these in order, then zeros.
    pub queue: &'a [u8],
}

impl Tables<'_> {
    /// The same tables for reading.
    #[must_use]
    pub fn view(&self) -> View<'_> {
        View { states: self.states, owners: self.owners, lists: self.lists, calls: self.calls, queue: self.queue }
    }

    /// Build: the tables become those of a fresh pool, whatever they held, and the record has clock 0 and nobody running.
    pub fn build(&mut self, device: &mut Device, shape: Shape) -> Result<Answer, Refusal> {
        boundary::build(device, shape, self)
    }

    /// Ask: the running thread asks for a block of at least this size (0: the smallest block), and says how long it would wait.
    pub fn ask(&mut self, device: Device, shape: Shape, thread: usize, size: usize, wait: Millis) -> Result<Answer, Refusal> {
        boundary::ask(device, shape, self, thread, size, wait)
    }

    /// Go on: the running thread's call makes its next step.
    #[must_use = "a granted block's id stands in the answer"]
    pub fn go_on(&mut self, device: &mut Device, shape: Shape, thread: usize) -> Result<Answer, Refusal> {
        boundary::go_on(device, shape, self, thread)
    }

    /// Give back: the running thread gives back a block that it holds.
    pub fn give_back(&mut self, device: Device, shape: Shape, thread: usize, id: Id) -> Result<Answer, Refusal> {
        boundary::give_back(device, shape, self, thread, id)
    }

    /// Switch: this thread runs from now on; the one before stays ready.
    pub fn switch(&self, device: &mut Device, shape: Shape, thread: usize) -> Result<Answer, Refusal> {
        boundary::switch(device, shape, self.view(), thread)
    }

    /// Tick: the clock rises by one, and threads whose deadline it is are ready.
    pub fn tick(&mut self, device: &mut Device, shape: Shape) -> Result<Answer, Refusal> {
        boundary::tick(device, shape, self)
    }

    /// Whole: whether all bytes are free and no thread has a call open.
    pub fn whole(&self, device: Device, shape: Shape) -> Result<Answer, Refusal> {
        self.view().whole(device, shape)
    }

    /// Cover: the one undivided block over a byte of the pool, with its state.
    pub fn cover(&self, device: Device, shape: Shape, offset: usize) -> Result<Covered, Refusal> {
        self.view().cover(device, shape, offset)
    }

    /// Map: the ids of all undivided blocks by address into the row. Answers their number; the row's further places stay as they were.
    pub fn map(&self, device: Device, shape: Shape, row: &mut [Id]) -> Result<usize, Refusal> {
        self.view().map(device, shape, row)
    }
}

impl View<'_> {
    /// Whole: whether all bytes are free and no thread has a call open.
    pub fn whole(&self, device: Device, shape: Shape) -> Result<Answer, Refusal> {
        boundary::whole(device, shape, *self)
    }

    /// Cover: the one undivided block over a byte of the pool, with its state.
    pub fn cover(&self, device: Device, shape: Shape, offset: usize) -> Result<Covered, Refusal> {
        boundary::cover(device, shape, *self, offset)
    }

    /// Map: the ids of all undivided blocks by address into the row. Answers their number; the row's further places stay as they were.
    pub fn map(&self, device: Device, shape: Shape, row: &mut [Id]) -> Result<usize, Refusal> {
        boundary::map(device, shape, *self, row)
    }
}
