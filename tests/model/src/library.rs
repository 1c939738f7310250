//! The proved library through its C boundary (include/saltbalance.h), wrapped so that the rest of the
//! model needs no unsafe code.
//!
//! Each table is lent from a buffer of its own with guard cells on both sides. A call that writes outside
//! a table is seen there instead of passing by luck. A table without cells is lent as a null pointer,
//! which the header allows.

use crate::entry::{After, Entry};
use crate::rules::lent::{Lent, Record, Tables};
use crate::rules::shape::Shape;
use std::ptr;

/// `saltbalance_shape`.
#[repr(C)]
#[derive(Clone, Copy)]
struct ShapeInC {
    pool: usize,
    threads: usize,
    levels: usize,
    tops: usize,
    top_size: usize,
}

/// `saltbalance_device`.
#[repr(C)]
#[derive(Clone, Copy)]
struct DeviceInC {
    clock: u32,
    running: u32,
}

/// `saltbalance_answer`.
#[repr(C)]
struct AnswerInC {
    number: usize,
    detail: usize,
}

/// `saltbalance_covered`.
#[repr(C)]
struct CoveredInC {
    refusal: usize,
    id: usize,
    state: usize,
}

/// `saltbalance_mapped`.
#[repr(C)]
struct MappedInC {
    refusal: usize,
    blocks: usize,
}

/// The functions of the header, each with its arguments in the header's order: `*mut` where the library
/// may write, `*const` where the header promises that it does not.
mod boundary {
    use super::*;

    #[rustfmt::skip]
    extern "C" {
        pub fn saltbalance_build(device: *mut DeviceInC, shape: ShapeInC,
            states: *mut u8, states_length: usize, owners: *mut u8, owners_length: usize,
            lists: *mut u16, lists_length: usize, calls: *mut u64, calls_length: usize,
            queue: *mut u8, queue_length: usize) -> AnswerInC;

        pub fn saltbalance_ask(device: DeviceInC, shape: ShapeInC,
            states: *const u8, states_length: usize, owners: *const u8, owners_length: usize,
            lists: *const u16, lists_length: usize, calls: *mut u64, calls_length: usize,
            queue: *const u8, queue_length: usize,
            thread: usize, size: usize, wait: i32) -> AnswerInC;

        pub fn saltbalance_go_on(device: *mut DeviceInC, shape: ShapeInC,
            states: *mut u8, states_length: usize, owners: *mut u8, owners_length: usize,
            lists: *mut u16, lists_length: usize, calls: *mut u64, calls_length: usize,
            queue: *mut u8, queue_length: usize,
            thread: usize) -> AnswerInC;

        pub fn saltbalance_give_back(device: DeviceInC, shape: ShapeInC,
            states: *mut u8, states_length: usize, owners: *mut u8, owners_length: usize,
            lists: *const u16, lists_length: usize, calls: *mut u64, calls_length: usize,
            queue: *const u8, queue_length: usize,
            thread: usize, id: usize) -> AnswerInC;

        pub fn saltbalance_switch(device: *mut DeviceInC, shape: ShapeInC,
            states: *const u8, states_length: usize, owners: *const u8, owners_length: usize,
            lists: *const u16, lists_length: usize, calls: *const u64, calls_length: usize,
            queue: *const u8, queue_length: usize,
            thread: usize) -> AnswerInC;

        pub fn saltbalance_tick(device: *mut DeviceInC, shape: ShapeInC,
            states: *const u8, states_length: usize, owners: *const u8, owners_length: usize,
            lists: *const u16, lists_length: usize, calls: *mut u64, calls_length: usize,
            queue: *mut u8, queue_length: usize) -> AnswerInC;

        pub fn saltbalance_whole(device: DeviceInC, shape: ShapeInC,
            states: *const u8, states_length: usize, owners: *const u8, owners_length: usize,
            lists: *const u16, lists_length: usize, calls: *const u64, calls_length: usize,
            queue: *const u8, queue_length: usize) -> AnswerInC;

        pub fn saltbalance_cover(device: DeviceInC, shape: ShapeInC,
            states: *const u8, states_length: usize, owners: *const u8, owners_length: usize,
            lists: *const u16, lists_length: usize, calls: *const u64, calls_length: usize,
            queue: *const u8, queue_length: usize,
            offset: usize) -> CoveredInC;

        pub fn saltbalance_map(device: DeviceInC, shape: ShapeInC,
            states: *const u8, states_length: usize, owners: *const u8, owners_length: usize,
            lists: *const u16, lists_length: usize, calls: *const u64, calls_length: usize,
            queue: *const u8, queue_length: usize,
            row: *mut u32, row_length: usize) -> MappedInC;
    }
}

/// Guard cells on each side of a table.
const GUARDS: usize = 8;

/// A table in a buffer of its own between guard cells.
struct Guarded<T> {
    buffer: Vec<T>,
    guard: T,
}

impl<T: Copy + PartialEq> Guarded<T> {
    fn new(table: &[T], guard: T) -> Guarded<T> {
        let guards = vec![guard; GUARDS];
        Guarded { buffer: [&guards, table, &guards].concat(), guard }
    }

    fn length(&self) -> usize {
        self.buffer.len() - 2 * GUARDS
    }

    /// Where the table starts, or null if it has no cells.
    fn start(&mut self) -> *mut T {
        if self.length() == 0 {
            ptr::null_mut()
        } else {
            self.buffer[GUARDS..].as_mut_ptr()
        }
    }

    /// The table as the call left it, and whether the guards are as they were.
    fn taken_out(self) -> (Vec<T>, bool) {
        let (front, rest) = self.buffer.split_at(GUARDS);
        let (table, back) = rest.split_at(rest.len() - GUARDS);
        let untouched = front.iter().chain(back).all(|&cell| cell == self.guard);
        (table.to_vec(), untouched)
    }
}

/// All that is lent to one call of the library.
struct LentToLibrary {
    shape: ShapeInC,
    device: DeviceInC,
    states: Guarded<u8>,
    owners: Guarded<u8>,
    lists: Guarded<u16>,
    calls: Guarded<u64>,
    queue: Guarded<u8>,
    row: Guarded<u32>,
}

/// Calls a function of the boundary: `$device`, the shape, the five tables, then the further arguments.
macro_rules! call {
    ($function:ident, $device:expr, $lent:ident $(, $argument:expr)*) => {
        // SAFETY: the header asks that a pointer with length n points to n elements, readable and (where
        // not const) writable, that nothing overlaps, and that a pointer with length 0 may be null. Each
        // table is its own buffer, exclusively borrowed through `$lent`, and alive during the call.
        unsafe {
            boundary::$function(
                $device, $lent.shape,
                $lent.states.start(), $lent.states.length(), $lent.owners.start(), $lent.owners.length(),
                $lent.lists.start(), $lent.lists.length(), $lent.calls.start(), $lent.calls.length(),
                $lent.queue.start(), $lent.queue.length() $(, $argument)*
            )
        }
    };
}

/// A step's number and detail in the answer's first two places.
fn two(answer: AnswerInC) -> [usize; 3] {
    [answer.number, answer.detail, 0]
}

/// Makes the call and gives its answer.
fn answer(entry: &Entry, lent: &mut LentToLibrary) -> [usize; 3] {
    let device = lent.device;
    match *entry {
        Entry::Build => two(call!(saltbalance_build, &mut lent.device, lent)),
        Entry::Ask { thread, size, wait } => two(call!(saltbalance_ask, device, lent, thread, size, wait)),
        Entry::GoOn { thread } => two(call!(saltbalance_go_on, &mut lent.device, lent, thread)),
        Entry::GiveBack { thread, id } => two(call!(saltbalance_give_back, device, lent, thread, id)),
        Entry::Switch { thread } => two(call!(saltbalance_switch, &mut lent.device, lent, thread)),
        Entry::Tick => two(call!(saltbalance_tick, &mut lent.device, lent)),
        Entry::Whole => two(call!(saltbalance_whole, device, lent)),
        Entry::Cover { offset } => {
            let covered = call!(saltbalance_cover, device, lent, offset);
            [covered.refusal, covered.id, covered.state]
        }
        Entry::Map { .. } => {
            let (row, length) = (lent.row.start(), lent.row.length());
            let mapped = call!(saltbalance_map, device, lent, row, length);
            [mapped.refusal, mapped.blocks, 0]
        }
    }
}

/// Copies what is lent into guarded buffers.
fn lend(entry: &Entry, lent: &Lent) -> LentToLibrary {
    let Shape { pool, threads, levels, tops, top_size } = lent.shape;
    let row: &[u32] = if let Entry::Map { row } = entry { row } else { &[] };
    LentToLibrary {
        shape: ShapeInC { pool, threads, levels, tops, top_size },
        device: DeviceInC { clock: lent.record.clock, running: lent.record.running },
        states: Guarded::new(&lent.tables.states, 0xA5),
        owners: Guarded::new(&lent.tables.owners, 0xA5),
        lists: Guarded::new(&lent.tables.lists, 0xA5A5),
        calls: Guarded::new(&lent.tables.calls, 0xA5A5_A5A5_A5A5_A5A5),
        queue: Guarded::new(&lent.tables.queue, 0xA5),
        row: Guarded::new(row, 0xA5A5_A5A5),
    }
}

/// What the library makes of this call, and whether it kept to the tables.
pub fn by_library(entry: &Entry, lent: &Lent) -> (After, bool) {
    let mut lent = lend(entry, lent);
    let answer = answer(entry, &mut lent);
    let record = Record { clock: lent.device.clock, running: lent.device.running };
    let (states, states_kept) = lent.states.taken_out();
    let (owners, owners_kept) = lent.owners.taken_out();
    let (lists, lists_kept) = lent.lists.taken_out();
    let (calls, calls_kept) = lent.calls.taken_out();
    let (queue, queue_kept) = lent.queue.taken_out();
    let (row, row_kept) = lent.row.taken_out();
    let kept = states_kept && owners_kept && lists_kept && calls_kept && queue_kept && row_kept;
    (After { answer, record, tables: Tables { states, owners, lists, calls, queue }, row }, kept)
}
