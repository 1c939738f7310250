//! The record and the tables that a call is lent, with a row for the map.

use crate::shape::Shape;

/// The cells of a call in its table; the first of them is its stage.
pub const CELLS: usize = 6;

/// `saltbalance_device` of the header.
#[repr(C)]
#[derive(Clone, Copy, Debug, Default, PartialEq, Eq)]
pub struct Device {
    pub clock: u32,
    pub running: u32,
}

/// The record, the five tables and the row.
#[derive(Clone, Debug, PartialEq, Eq)]
pub struct Tables {
    pub device: Device,
    pub states: Vec<u8>,
    pub owners: Vec<u8>,
    pub lists: Vec<u16>,
    pub calls: Vec<u64>,
    pub queue: Vec<u8>,
    pub row: Vec<u32>,
}

impl Tables {
    /// Tables of zeros with the lengths of a shape.
    pub fn zeros(shape: Shape) -> Tables {
        let blocks = shape.blocks();
        Tables {
            device: Device::default(),
            states: vec![0; blocks],
            owners: vec![0; blocks],
            lists: vec![0; shape.levels + blocks],
            calls: vec![0; CELLS * shape.threads],
            queue: vec![0; shape.threads + 1],
            row: vec![0; blocks],
        }
    }

    /// The stage of a thread's call.
    pub fn stage(&self, thread: usize) -> u64 {
        self.calls[CELLS * thread]
    }

    /// The bytes that a call reads and writes, without the row.
    pub fn bytes(&self) -> usize {
        self.states.len() + self.owners.len() + 2 * self.lists.len() + 8 * self.calls.len() + self.queue.len()
    }
}
