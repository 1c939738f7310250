//! The buffers' memory: one array of bytes. A block's id says which part of it is the block.

use saltbalance::{Id, Shape};
use std::sync::{Mutex, MutexGuard};

pub struct Memory {
    shape: Shape,
    bytes: Mutex<Vec<u8>>,
}

impl Memory {
    pub fn new(shape: Shape) -> Memory {
        Memory { shape, bytes: Mutex::new(vec![0; shape.bytes()]) }
    }

    /// Lends the first bytes of a block, which the caller holds.
    pub fn with<T>(&self, block: Id, length: usize, work: impl FnOnce(&mut [u8]) -> T) -> T {
        let mut bytes = self.lock();
        let place = block.range(&self.shape);
        work(&mut bytes[place][..length])
    }

    /// Copies the first bytes of a block to another.
    pub fn copy(&self, from: Id, to: Id, length: usize) {
        let mut bytes = self.lock();
        let start = from.offset(&self.shape);
        bytes.copy_within(start..start + length, to.offset(&self.shape));
    }

    /// Whether the first bytes of two blocks are the same.
    pub fn same(&self, one: Id, other: Id, length: usize) -> bool {
        let bytes = self.lock();
        bytes[one.range(&self.shape)][..length] == bytes[other.range(&self.shape)][..length]
    }

    fn lock(&self) -> MutexGuard<'_, Vec<u8>> {
        self.bytes.lock().expect("a task that panics ends the program")
    }
}
