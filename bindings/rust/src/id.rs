//! The id of a block.

use crate::shape::Shape;
use core::fmt;
use core::ops::Range;

/// The id of a block: pool + 256 × level + 4,096 × block.
///
/// An id is a plain number, and any number may be handed to [`Tables::give_back`](crate::Tables::give_back): one that names no block
/// of the pool is refused.
///
/// ```
/// use saltbalance::{Id, Shape};
///
/// let shape = Shape { pool: 1, threads: 2, levels: 3, tops: 1, top_size: 1024 };
/// let id = Id(20_993);
/// assert_eq!((id.pool(), id.level(), id.block()), (1, 2, 5));
/// assert_eq!((id.offset(&shape), id.size(&shape)), (320, 64));
///
/// // The buffer's bytes, where the buffers' memory is one array.
/// let mut memory = vec![0u8; shape.bytes()];
/// memory[id.range(&shape)].fill(7);
/// assert_eq!(memory[320..384], [7; 64]);
/// ```
#[repr(transparent)]
#[derive(Clone, Copy, Debug, Default, PartialEq, Eq, PartialOrd, Ord, Hash)]
pub struct Id(pub u32);

impl Id {
    /// The id of a block of an allowed shape.
    pub(crate) fn of(shape: &Shape, level: usize, block: usize) -> Id {
        Id((shape.pool + 256 * level + 4096 * block) as u32)
    }

    /// The number of the pool.
    #[must_use]
    pub fn pool(self) -> usize {
        self.0 as usize & 255
    }

    /// The level of the block: 0 for a top block.
    #[must_use]
    pub fn level(self) -> usize {
        self.0 as usize >> 8 & 15
    }

    /// The number of the block within its level.
    #[must_use]
    pub fn block(self) -> usize {
        self.0 as usize >> 12
    }

    /// The bytes of the block in a pool of this shape.
    #[must_use]
    pub fn size(self, shape: &Shape) -> usize {
        shape.size(self.level())
    }

    /// Where the block starts in a pool of this shape.
    #[must_use]
    pub fn offset(self, shape: &Shape) -> usize {
        self.block().saturating_mul(self.size(shape))
    }

    /// The places of the block's bytes in a pool of this shape, to take a part of the buffers' memory with.
    #[must_use]
    pub fn range(self, shape: &Shape) -> Range<usize> {
        let start = self.offset(shape);
        start..start.saturating_add(self.size(shape))
    }
}

impl fmt::Display for Id {
    fn fmt(&self, out: &mut fmt::Formatter<'_>) -> fmt::Result {
        self.0.fmt(out)
    }
}
