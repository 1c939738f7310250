//! The shape of a pool, and the sizes, counts, offsets and ids that follow from it.

/// The shape as the caller names it: any numbers at all until `allowed` says yes.
#[derive(Clone, Copy, Debug, PartialEq, Eq)]
pub struct Shape {
    /// The pool's number, the lowest part of its ids.
    pub pool: usize,
    /// How many threads there are, numbered from 0.
    pub threads: usize,
    /// How many levels there are, numbered from 0, the top blocks' level.
    pub levels: usize,
    /// How many top blocks there are.
    pub tops: usize,
    /// The bytes of a top block.
    pub top_size: usize,
}

/// 4 to the power of a level (or of the number of levels), which is small in an allowed shape.
fn four_to(level: usize) -> usize {
    (0..level).fold(1, |power, _| power * 4)
}

impl Shape {
    /// "Pool number 0..255; threads 1..8; levels 1..5; top blocks 1..16; top size at most 65,536 bytes
    /// and a positive multiple of 4^levels."
    pub fn allowed(&self) -> bool {
        self.pool <= 255
            && (1..=8).contains(&self.threads)
            && (1..=5).contains(&self.levels)
            && (1..=16).contains(&self.tops)
            && (1..=65_536).contains(&self.top_size)
            && self.top_size.is_multiple_of(four_to(self.levels))
    }
}

/// What follows from an allowed shape; asked of no other.
impl Shape {
    /// The bytes of a block of this level: top size / 4^level.
    pub fn size(&self, level: usize) -> usize {
        self.top_size / four_to(level)
    }

    /// The number of blocks of this level: top blocks × 4^level.
    pub fn count(&self, level: usize) -> usize {
        self.tops * four_to(level)
    }

    /// The number of blocks of all levels.
    pub fn blocks(&self) -> usize {
        (0..self.levels).map(|level| self.count(level)).sum()
    }

    /// The bytes of the whole pool.
    pub fn bytes(&self) -> usize {
        self.tops * self.top_size
    }

    /// The deepest level's number.
    pub fn deepest(&self) -> usize {
        self.levels - 1
    }

    /// Where a block stands in the tables of states and owners: level 0 first, each level together.
    pub fn place(&self, level: usize, block: usize) -> usize {
        let above: usize = (0..level).map(|level| self.count(level)).sum();
        above + block
    }

    /// The byte at which a block starts.
    pub fn offset(&self, level: usize, block: usize) -> usize {
        block * self.size(level)
    }

    /// A block's id: pool + 256 × level + 4,096 × block.
    pub fn id(&self, level: usize, block: usize) -> usize {
        self.pool + 256 * level + 4096 * block
    }

    /// The level and the block that an id names, if its three parts are inside this pool.
    pub fn named(&self, id: usize) -> Option<(usize, usize)> {
        let (pool, level, block) = (id % 256, id / 256 % 16, id / 4096);
        let inside = pool == self.pool && level < self.levels && block < self.count(level);
        inside.then_some((level, block))
    }

    /// The level for a request: "the deepest whose size is at least the request". None above the top
    /// size.
    pub fn target(&self, size: u64) -> Option<usize> {
        (0..self.levels).rev().find(|&level| self.size(level) as u64 >= size)
    }

    /// Every block of the shape as level and number, level 0 first.
    pub fn every_block(&self) -> impl Iterator<Item = (usize, usize)> {
        let shape = *self;
        (0..shape.levels).flat_map(move |level| (0..shape.count(level)).map(move |block| (level, block)))
    }
}
