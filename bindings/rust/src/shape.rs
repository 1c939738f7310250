//! The shape of a pool, and the lengths of its tables.

use crate::boundary;
use crate::refusal::Refusal;

/// The shape of a pool: its number, how many threads use it, its levels, its top blocks and the bytes of a top block.
///
/// Any numbers may stand here. Every call refuses a shape outside the limits with [`Refusal::ShapeNotAllowed`]: pool at most 255,
/// threads 1 to 8, levels 1 to 5, top blocks 1 to 16, top size at most 65,536 and a positive multiple of 4 to the power of levels.
///
/// ```
/// use saltbalance::Shape;
///
/// let shape = Shape { pool: 1, threads: 2, levels: 3, tops: 1, top_size: 1024 };
/// assert!(shape.allowed());
/// assert_eq!([shape.size(0), shape.size(1), shape.size(2)], [1024, 256, 64]);
///
/// let odd = Shape { top_size: 1000, ..shape };
/// assert!(!odd.allowed());
/// ```
#[repr(C)]
#[derive(Clone, Copy, Debug, PartialEq, Eq, Hash)]
pub struct Shape {
    /// The pool's number, which its ids carry.
    pub pool: usize,
    /// How many threads use the pool. They are numbered from 0.
    pub threads: usize,
    /// How many sizes of block there are. Level 0 has the top blocks.
    pub levels: usize,
    /// How many top blocks there are.
    pub tops: usize,
    /// The bytes of a top block.
    pub top_size: usize,
}

/// The length of each table of a pool, in elements, as [`Shape::lengths`] gives it.
#[derive(Clone, Copy, Debug, PartialEq, Eq, Hash)]
pub struct Lengths {
    /// A state for each block of each level.
    pub states: usize,
    /// An owner for each block of each level.
    pub owners: usize,
    /// The length of each level's free list, and a place for each block.
    pub lists: usize,
    /// Six cells for each thread.
    pub calls: usize,
    /// The number of waiting threads, and a place for each thread.
    pub queue: usize,
}

impl Shape {
    /// Into how many parts a block is split.
    pub const PARTS: usize = 4;

    /// How many cells a thread has in the table of calls. The first one is its call's stage, 0 where no call is open.
    pub const CELLS: usize = 6;

    /// Whether the numbers lie within the limits.
    ///
    /// The rule is stated once, in the proved code, and asked there: building on empty tables is refused for the shape, or else for
    /// the lengths.
    #[must_use]
    pub fn allowed(&self) -> bool {
        boundary::build_on_nothing(*self) == Err(Refusal::WrongLength)
    }

    /// The lengths that this shape's tables must have, or [`Refusal::ShapeNotAllowed`].
    ///
    /// ```
    /// use saltbalance::{Refusal, Shape};
    ///
    /// let shape = Shape { pool: 1, threads: 2, levels: 2, tops: 1, top_size: 64 };
    /// let lengths = shape.lengths().unwrap();
    /// assert_eq!((lengths.states, lengths.owners, lengths.lists), (5, 5, 7));
    /// assert_eq!((lengths.calls, lengths.queue), (12, 3));
    ///
    /// let none = Shape { levels: 0, ..shape };
    /// assert_eq!(none.lengths(), Err(Refusal::ShapeNotAllowed));
    /// ```
    pub fn lengths(&self) -> Result<Lengths, Refusal> {
        if !self.allowed() {
            return Err(Refusal::ShapeNotAllowed);
        }
        let blocks = self.blocks();
        Ok(Lengths {
            states: blocks,
            owners: blocks,
            lists: self.levels + blocks,
            calls: Shape::CELLS * self.threads,
            queue: self.threads + 1,
        })
    }

    /// The block size at a level, in bytes: the top size / 4 to the power of the level.
    #[must_use]
    pub fn size(&self, level: usize) -> usize {
        self.top_size / parts_of_top(level)
    }

    /// How many blocks a level has: the top blocks × 4 to the power of the level.
    #[must_use]
    pub fn count(&self, level: usize) -> usize {
        self.tops.saturating_mul(parts_of_top(level))
    }

    /// The bytes of the whole pool.
    #[must_use]
    pub fn bytes(&self) -> usize {
        self.tops.saturating_mul(self.top_size)
    }

    /// The number of blocks of all levels of an allowed shape.
    fn blocks(&self) -> usize {
        (0..self.levels).map(|level| self.count(level)).sum()
    }
}

/// How many blocks of a level a top block has, or the largest number where that is above it.
fn parts_of_top(level: usize) -> usize {
    u32::try_from(level).map_or(usize::MAX, |level| Shape::PARTS.saturating_pow(level))
}
