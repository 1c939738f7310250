//! What a call changed, so that it can be undone cell by cell: the tables stay where they are in the processor's caches.

use crate::tables::{Device, Tables};

/// Places of a table and what they held.
type Cells<T> = Vec<(usize, T)>;

/// The record and the cells as they were before a call.
pub struct Patch {
    device: Device,
    states: Cells<u8>,
    owners: Cells<u8>,
    lists: Cells<u16>,
    calls: Cells<u64>,
    queue: Cells<u8>,
}

/// The cells that differ.
fn differ<T: Copy + PartialEq>(before: &[T], after: &[T]) -> Cells<T> {
    let cells = before.iter().zip(after).enumerate();
    cells.filter(|(_, (old, new))| old != new).map(|(place, (&old, _))| (place, old)).collect()
}

/// Puts back what cells held.
fn put_back<T: Copy>(cells: &Cells<T>, table: &mut [T]) {
    for &(place, old) in cells {
        table[place] = old;
    }
}

impl Patch {
    /// What turns the tables after a call into those before it.
    pub fn new(before: &Tables, after: &Tables) -> Patch {
        Patch {
            device: before.device,
            states: differ(&before.states, &after.states),
            owners: differ(&before.owners, &after.owners),
            lists: differ(&before.lists, &after.lists),
            calls: differ(&before.calls, &after.calls),
            queue: differ(&before.queue, &after.queue),
        }
    }

    /// Undoes the call.
    pub fn undo(&self, tables: &mut Tables) {
        tables.device = self.device;
        put_back(&self.states, &mut tables.states);
        put_back(&self.owners, &mut tables.owners);
        put_back(&self.lists, &mut tables.lists);
        put_back(&self.calls, &mut tables.calls);
        put_back(&self.queue, &mut tables.queue);
    }
}
