//! Calls behind the boundary of include/saltbalance.h: those of the archive, and those of plain C under other names. All unsafe code of
//! the harness is here.

use crate::call::{Call, Pool, Reply};
use crate::shape::Shape;
use crate::tables::{Device, Tables};

/// `saltbalance_answer` of the header.
#[repr(C)]
struct Answer {
    number: usize,
    detail: usize,
}

/// `saltbalance_covered` of the header.
#[repr(C)]
struct Covered {
    refusal: usize,
    id: usize,
    state: usize,
}

/// `saltbalance_mapped` of the header.
#[repr(C)]
struct Mapped {
    refusal: usize,
    blocks: usize,
}

/// Declares a function of the boundary: what stands first, the five tables with their lengths, what stands last.
macro_rules! declared {
    ($name:ident, $device:ty, ($($last:ident: $kind:ty),*), $answer:ty) => {
        extern "C" {
            fn $name(
                device: $device, shape: Shape, states: *mut u8, states_length: usize, owners: *mut u8, owners_length: usize,
                lists: *mut u16, lists_length: usize, calls: *mut u64, calls_length: usize, queue: *mut u8, queue_length: usize,
                $($last: $kind),*
            ) -> $answer;
        }
    };
}

/// Calls a function of the boundary on all tables. They are lent as writable; the function writes only where the header lets it.
macro_rules! lent {
    ($name:ident, $device:expr, $shape:ident, $t:ident $(, $last:expr)*) => {
        // SAFETY: every pointer is a vector's with that vector's length; record and tables are borrowed by `&mut` and do not overlap.
        unsafe {
            $name(
                $device, $shape, $t.states.as_mut_ptr(), $t.states.len(), $t.owners.as_mut_ptr(), $t.owners.len(),
                $t.lists.as_mut_ptr(), $t.lists.len(), $t.calls.as_mut_ptr(), $t.calls.len(), $t.queue.as_mut_ptr(), $t.queue.len(),
                $($last),*
            )
        }
    };
}

/// A pool from the names of its nine functions.
macro_rules! linked {
    ($pool:ident, $title:literal, $build:ident, $ask:ident, $go_on:ident, $give_back:ident, $switch:ident, $tick:ident, $whole:ident,
     $cover:ident, $map:ident) => {
        declared!($build, *mut Device, (), Answer);
        declared!($ask, Device, (thread: usize, size: usize, wait: i32), Answer);
        declared!($go_on, *mut Device, (thread: usize), Answer);
        declared!($give_back, Device, (thread: usize, id: usize), Answer);
        declared!($switch, *mut Device, (thread: usize), Answer);
        declared!($tick, *mut Device, (), Answer);
        declared!($whole, Device, (), Answer);
        declared!($cover, Device, (offset: usize), Covered);
        declared!($map, Device, (row: *mut u32, row_length: usize), Mapped);

        pub struct $pool;

        impl Pool for $pool {
            fn name(&self) -> &'static str {
                $title
            }

            #[inline(never)]
            fn make(&self, call: Call, shape: Shape, t: &mut Tables) -> Reply {
                let answer = match call {
                    Call::Build => lent!($build, &mut t.device, shape, t),
                    Call::Ask { thread, size, wait } => lent!($ask, t.device, shape, t, thread, size, wait),
                    Call::GoOn { thread } => lent!($go_on, &mut t.device, shape, t, thread),
                    Call::GiveBack { thread, id } => lent!($give_back, t.device, shape, t, thread, id),
                    Call::Switch { thread } => lent!($switch, &mut t.device, shape, t, thread),
                    Call::Tick => lent!($tick, &mut t.device, shape, t),
                    Call::Whole => lent!($whole, t.device, shape, t),
                    Call::Cover { offset } => {
                        let covered = lent!($cover, t.device, shape, t, offset);
                        return [covered.refusal, covered.id, covered.state];
                    }
                    Call::Map => {
                        let mapped = lent!($map, t.device, shape, t, t.row.as_mut_ptr(), t.row.len());
                        return [mapped.refusal, mapped.blocks, 0];
                    }
                };
                [answer.number, answer.detail, 0]
            }
        }
    };
}

linked!(
    Proved,
    "proved",
    saltbalance_build,
    saltbalance_ask,
    saltbalance_go_on,
    saltbalance_give_back,
    saltbalance_switch,
    saltbalance_tick,
    saltbalance_whole,
    saltbalance_cover,
    saltbalance_map
);

linked!(PlainC, "C", plain_build, plain_ask, plain_go_on, plain_give_back, plain_switch, plain_tick, plain_whole, plain_cover, plain_map);
