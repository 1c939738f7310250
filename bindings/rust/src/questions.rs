//! What a light or a support line shows. These questions are not proved. Each of them first has the tables checked by *whole*, which is
//! proved, and then goes over them once.

use crate::answer::Answer;
use crate::device::Device;
use crate::id::Id;
use crate::refusal::Refusal;
use crate::shape::Shape;
use crate::state::State;
use crate::tables::View;

/// The bytes of a pool by the state of the one undivided block over each. They sum to the pool's bytes.
#[non_exhaustive]
#[derive(Clone, Copy, Debug, Default, PartialEq, Eq, Hash)]
pub struct Bytes {
    /// The bytes that threads hold.
    pub allocated: usize,
    /// The free bytes.
    pub free: usize,
    /// The bytes in hand on their way home.
    pub freeing: usize,
    /// The bytes in hand on their way to a thread.
    pub allocating: usize,
}

/// Who keeps a pool from being whole, as [`View::keeper`] names it.
#[non_exhaustive]
#[derive(Clone, Copy, Debug, PartialEq, Eq, Hash)]
pub enum Keeper {
    /// A thread has a call open.
    Call {
        /// The thread.
        thread: usize,
    },
    /// No thread has a call open, and a block is held.
    Block {
        /// The block.
        id: Id,
        /// The thread that holds it.
        thread: usize,
    },
}

/// A block of checked tables.
struct Block {
    level: usize,
    number: usize,
    state: Option<State>,
    /// 0 for nobody, t + 1 for thread t.
    owner: usize,
}

/// The questions that are not proved, on tables that *whole* accepts. Other tables are refused with 1, 2 or 3, as *whole* refuses them.
///
/// ```
/// use saltbalance::{Device, Id, Keeper, Refusal, Shape, View};
///
/// let shape = Shape { pool: 1, threads: 2, levels: 1, tops: 3, top_size: 64 };
/// let device = Device::default();
///
/// // Block 1 is thread 0's; the others are free, and listed.
/// let view = View { states: &[1, 0, 1], owners: &[0, 1, 0], lists: &[2, 0, 2, 0], calls: &[0; 12], queue: &[0; 3] };
/// assert_eq!(view.free_bytes(device, shape)?, 128);
/// assert_eq!(view.bytes_by_state(device, shape)?.allocated, 64);
/// assert_eq!(view.largest_size(device, shape)?, Some(64));
/// assert_eq!(view.held_bytes(device, shape, 0)?, 64);
/// assert_eq!(view.keeper(device, shape)?, Some(Keeper::Block { id: Id(4097), thread: 0 }));
/// assert_eq!(view.held_bytes(device, shape, 2), Err(Refusal::NoThread));
/// # Ok::<(), Refusal>(())
/// ```
impl View<'_> {
    /// How many bytes lie in free blocks. They may lie apart: [`largest_size`](View::largest_size) says what is granted.
    pub fn free_bytes(&self, device: Device, shape: Shape) -> Result<usize, Refusal> {
        Ok(self.bytes_by_state(device, shape)?.free)
    }

    /// How many bytes lie in blocks of each state.
    pub fn bytes_by_state(&self, device: Device, shape: Shape) -> Result<Bytes, Refusal> {
        self.whole(device, shape)?;
        let mut bytes = Bytes::default();
        for block in self.blocks(shape) {
            let size = shape.size(block.level);
            match block.state {
                Some(State::Allocated) => bytes.allocated += size,
                Some(State::Free) => bytes.free += size,
                Some(State::Freeing) => bytes.freeing += size,
                Some(State::Allocating) => bytes.allocating += size,
                Some(State::Divided | State::NoExist) | None => {}
            }
        }
        Ok(bytes)
    }

    /// The largest size that would be granted now, to a running thread with no call open that may not wait, with no other thread's step
    /// until its call ends: the block size of the highest level with a free block. None if no block is free.
    pub fn largest_size(&self, device: Device, shape: Shape) -> Result<Option<usize>, Refusal> {
        self.whole(device, shape)?;
        let lengths = self.lists.iter().take(shape.levels);
        let highest = lengths.enumerate().find(|&(_, &length)| length > 0);
        Ok(highest.map(|(level, _)| shape.size(level)))
    }

    /// How many bytes lie in the blocks that a thread holds. Bytes in hand are not held. Refused too with 4.
    pub fn held_bytes(&self, device: Device, shape: Shape, thread: usize) -> Result<usize, Refusal> {
        self.whole(device, shape)?;
        if thread >= shape.threads {
            return Err(Refusal::NoThread);
        }
        let held = self.blocks(shape).filter(|block| block.owner == thread + 1);
        Ok(held.map(|block| shape.size(block.level)).sum())
    }

    /// Who keeps the pool from being whole: the thread of lowest number that has a call open; where none has, the held block of lowest
    /// offset, with the thread that holds it. None exactly if the pool is whole.
    pub fn keeper(&self, device: Device, shape: Shape) -> Result<Option<Keeper>, Refusal> {
        if self.whole(device, shape)? == Answer::Whole {
            return Ok(None);
        }
        let open = self.calls.chunks(Shape::CELLS).position(|cells| cells.first() != Some(&0));
        if let Some(thread) = open {
            return Ok(Some(Keeper::Call { thread }));
        }
        let held = self.blocks(shape).filter(|block| block.owner > 0);
        let lowest = held.min_by_key(|block| block.number * shape.size(block.level));
        Ok(lowest.map(|block| Keeper::Block { id: Id::of(&shape, block.level, block.number), thread: block.owner - 1 }))
    }

    /// All blocks of checked tables, in the order of the states.
    fn blocks(&self, shape: Shape) -> impl Iterator<Item = Block> + '_ {
        let places = (0..shape.levels).flat_map(move |level| (0..shape.count(level)).map(move |number| (level, number)));
        let contents = self.states.iter().zip(self.owners);
        places.zip(contents).map(|((level, number), (&state, &owner))| Block {
            level,
            number,
            state: State::from_number(state),
            owner: usize::from(owner),
        })
    }
}
