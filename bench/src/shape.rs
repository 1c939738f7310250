//! The shape of a pool, and the five shapes that are measured.

/// `saltbalance_shape` of the header.
#[repr(C)]
#[derive(Clone, Copy, Debug, PartialEq, Eq)]
pub struct Shape {
    pub pool: usize,
    pub threads: usize,
    pub levels: usize,
    pub tops: usize,
    pub top_size: usize,
}

/// From one block to the most that a pool may have, each with as many threads as there may be.
pub const SHAPES: [Shape; 5] = [measured(1, 1), measured(2, 4), measured(3, 8), measured(4, 16), measured(5, 16)];

/// A measured shape: its sizes do not matter to the tables.
const fn measured(levels: usize, tops: usize) -> Shape {
    Shape { pool: 1, threads: 8, levels, tops, top_size: 4096 }
}

impl Shape {
    /// A shape with as many blocks whose other numbers differ: it is compared and not measured.
    pub fn beside(self) -> Shape {
        Shape { pool: 200, threads: 3, top_size: 3 * self.top_size, ..self }
    }

    /// The number of blocks of all levels.
    pub fn blocks(self) -> usize {
        (0..self.levels).map(|level| self.tops << (2 * level)).sum()
    }

    /// The bytes of a block of this level.
    pub fn size(self, level: usize) -> usize {
        self.top_size >> (2 * level)
    }

    /// The bytes of the whole pool.
    pub fn bytes(self) -> usize {
        self.tops * self.top_size
    }
}
