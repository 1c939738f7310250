//! The boundary: the calls of the archive, declared as in include/saltbalance.h, and each wrapped on slices. All unsafe code is here.
//!
//! What the archive asks of a caller is what C itself asks, and slices grant it:
//!
//! - a pointer with length n points to n elements that may be read, and written where the header does not say `const`;
//! - the tables, the record and the row of one call do not overlap: what may be written is borrowed by `&mut`;
//! - pointers are used during the call and not kept.
//!
//! Numbers and contents may be any: the archive checks them and refuses.

use crate::answer::Answer;
use crate::device::{Device, Millis};
use crate::id::Id;
use crate::refusal::Refusal;
use crate::shape::Shape;
use crate::state::{Covered, State};
use crate::tables::{Tables, View};

/// `saltbalance_answer` of the header.
#[repr(C)]
struct RawAnswer {
    number: usize,
    detail: usize,
}

/// `saltbalance_covered` of the header.
#[repr(C)]
struct RawCovered {
    refusal: usize,
    id: usize,
    state: usize,
}

/// `saltbalance_mapped` of the header.
#[repr(C)]
struct RawMapped {
    refusal: usize,
    blocks: usize,
}

extern "C" {
    fn saltbalance_build(
        device: *mut Device, shape: Shape,
        states: *mut u8, states_length: usize, owners: *mut u8, owners_length: usize, lists: *mut u16, lists_length: usize,
        calls: *mut u64, calls_length: usize, queue: *mut u8, queue_length: usize,
    ) -> RawAnswer;

    fn saltbalance_ask(
        device: Device, shape: Shape,
        states: *const u8, states_length: usize, owners: *const u8, owners_length: usize, lists: *const u16, lists_length: usize,
        calls: *mut u64, calls_length: usize, queue: *const u8, queue_length: usize,
        thread: usize, size: usize, wait: i32,
    ) -> RawAnswer;

    fn saltbalance_go_on(
        device: *mut Device, shape: Shape,
        states: *mut u8, states_length: usize, owners: *mut u8, owners_length: usize, lists: *mut u16, lists_length: usize,
        calls: *mut u64, calls_length: usize, queue: *mut u8, queue_length: usize,
        thread: usize,
    ) -> RawAnswer;

    fn saltbalance_give_back(
        device: Device, shape: Shape,
        states: *mut u8, states_length: usize, owners: *mut u8, owners_length: usize, lists: *const u16, lists_length: usize,
        calls: *mut u64, calls_length: usize, queue: *const u8, queue_length: usize,
        thread: usize, id: usize,
    ) -> RawAnswer;

    fn saltbalance_switch(
        device: *mut Device, shape: Shape,
        states: *const u8, states_length: usize, owners: *const u8, owners_length: usize, lists: *const u16, lists_length: usize,
        calls: *const u64, calls_length: usize, queue: *const u8, queue_length: usize,
        thread: usize,
    ) -> RawAnswer;

    fn saltbalance_tick(
        device: *mut Device, shape: Shape,
        states: *const u8, states_length: usize, owners: *const u8, owners_length: usize, lists: *const u16, lists_length: usize,
        calls: *mut u64, calls_length: usize, queue: *mut u8, queue_length: usize,
    ) -> RawAnswer;

    fn saltbalance_whole(
        device: Device, shape: Shape,
        states: *const u8, states_length: usize, owners: *const u8, owners_length: usize, lists: *const u16, lists_length: usize,
        calls: *const u64, calls_length: usize, queue: *const u8, queue_length: usize,
    ) -> RawAnswer;

    fn saltbalance_cover(
        device: Device, shape: Shape,
        states: *const u8, states_length: usize, owners: *const u8, owners_length: usize, lists: *const u16, lists_length: usize,
        calls: *const u64, calls_length: usize, queue: *const u8, queue_length: usize,
        offset: usize,
    ) -> RawCovered;

    fn saltbalance_map(
        device: Device, shape: Shape,
        states: *const u8, states_length: usize, owners: *const u8, owners_length: usize, lists: *const u16, lists_length: usize,
        calls: *const u64, calls_length: usize, queue: *const u8, queue_length: usize,
        row: *mut Id, row_length: usize,
    ) -> RawMapped;
}

pub(crate) fn build(device: &mut Device, shape: Shape, t: &mut Tables<'_>) -> Result<Answer, Refusal> {
    // SAFETY: every pointer is a slice's with that slice's length; all five and the record are borrowed by `&mut`.
    step(unsafe {
        saltbalance_build(
            device, shape,
            t.states.as_mut_ptr(), t.states.len(),
            t.owners.as_mut_ptr(), t.owners.len(),
            t.lists.as_mut_ptr(), t.lists.len(),
            t.calls.as_mut_ptr(), t.calls.len(),
            t.queue.as_mut_ptr(), t.queue.len(),
        )
    })
}

/// Builds on empty tables, which is always refused: for the shape, or, where the shape is allowed, for the lengths.
pub(crate) fn build_on_nothing(shape: Shape) -> Result<Answer, Refusal> {
    let mut nothing = Tables { states: &mut [], owners: &mut [], lists: &mut [], calls: &mut [], queue: &mut [] };
    build(&mut Device::default(), shape, &mut nothing)
}

pub(crate) fn ask(
    device: Device, shape: Shape, t: &mut Tables<'_>, thread: usize, size: usize, wait: Millis,
) -> Result<Answer, Refusal> {
    // SAFETY: every pointer is a slice's with that slice's length; calls, the one that is written, is borrowed by `&mut`.
    step(unsafe {
        saltbalance_ask(
            device, shape,
            t.states.as_ptr(), t.states.len(),
            t.owners.as_ptr(), t.owners.len(),
            t.lists.as_ptr(), t.lists.len(),
            t.calls.as_mut_ptr(), t.calls.len(),
            t.queue.as_ptr(), t.queue.len(),
            thread, size, wait.0,
        )
    })
}

pub(crate) fn go_on(device: &mut Device, shape: Shape, t: &mut Tables<'_>, thread: usize) -> Result<Answer, Refusal> {
    // SAFETY: every pointer is a slice's with that slice's length; all five and the record are borrowed by `&mut`.
    step(unsafe {
        saltbalance_go_on(
            device, shape,
            t.states.as_mut_ptr(), t.states.len(),
            t.owners.as_mut_ptr(), t.owners.len(),
            t.lists.as_mut_ptr(), t.lists.len(),
            t.calls.as_mut_ptr(), t.calls.len(),
            t.queue.as_mut_ptr(), t.queue.len(),
            thread,
        )
    })
}

pub(crate) fn give_back(device: Device, shape: Shape, t: &mut Tables<'_>, thread: usize, id: Id) -> Result<Answer, Refusal> {
    // SAFETY: every pointer is a slice's with that slice's length; states, owners and calls, which are written, are borrowed by `&mut`.
    step(unsafe {
        saltbalance_give_back(
            device, shape,
            t.states.as_mut_ptr(), t.states.len(),
            t.owners.as_mut_ptr(), t.owners.len(),
            t.lists.as_ptr(), t.lists.len(),
            t.calls.as_mut_ptr(), t.calls.len(),
            t.queue.as_ptr(), t.queue.len(),
            thread, id.0 as usize,
        )
    })
}

pub(crate) fn switch(device: &mut Device, shape: Shape, t: View<'_>, thread: usize) -> Result<Answer, Refusal> {
    // SAFETY: every pointer is a slice's with that slice's length; the record, the one that is written, is borrowed by `&mut`.
    step(unsafe {
        saltbalance_switch(
            device, shape,
            t.states.as_ptr(), t.states.len(),
            t.owners.as_ptr(), t.owners.len(),
            t.lists.as_ptr(), t.lists.len(),
            t.calls.as_ptr(), t.calls.len(),
            t.queue.as_ptr(), t.queue.len(),
            thread,
        )
    })
}

pub(crate) fn tick(device: &mut Device, shape: Shape, t: &mut Tables<'_>) -> Result<Answer, Refusal> {
    // SAFETY: every pointer is a slice's with that slice's length; calls, queue and the record, which are written, are borrowed by `&mut`.
    step(unsafe {
        saltbalance_tick(
            device, shape,
            t.states.as_ptr(), t.states.len(),
            t.owners.as_ptr(), t.owners.len(),
            t.lists.as_ptr(), t.lists.len(),
            t.calls.as_mut_ptr(), t.calls.len(),
            t.queue.as_mut_ptr(), t.queue.len(),
        )
    })
}

pub(crate) fn whole(device: Device, shape: Shape, t: View<'_>) -> Result<Answer, Refusal> {
    // SAFETY: every pointer is a slice's with that slice's length; nothing is written.
    step(unsafe {
        saltbalance_whole(
            device, shape,
            t.states.as_ptr(), t.states.len(),
            t.owners.as_ptr(), t.owners.len(),
            t.lists.as_ptr(), t.lists.len(),
            t.calls.as_ptr(), t.calls.len(),
            t.queue.as_ptr(), t.queue.len(),
        )
    })
}

pub(crate) fn cover(device: Device, shape: Shape, t: View<'_>, offset: usize) -> Result<Covered, Refusal> {
    // SAFETY: every pointer is a slice's with that slice's length; nothing is written.
    covered(unsafe {
        saltbalance_cover(
            device, shape,
            t.states.as_ptr(), t.states.len(),
            t.owners.as_ptr(), t.owners.len(),
            t.lists.as_ptr(), t.lists.len(),
            t.calls.as_ptr(), t.calls.len(),
            t.queue.as_ptr(), t.queue.len(),
            offset,
        )
    })
}

pub(crate) fn map(device: Device, shape: Shape, t: View<'_>, row: &mut [Id]) -> Result<usize, Refusal> {
    // SAFETY: every pointer is a slice's with that slice's length; the row, the one that is written, is borrowed by `&mut`, and an `Id`
    // is laid out as the `uint32_t` of the header.
    mapped(unsafe {
        saltbalance_map(
            device, shape,
            t.states.as_ptr(), t.states.len(),
            t.owners.as_ptr(), t.owners.len(),
            t.lists.as_ptr(), t.lists.len(),
            t.calls.as_ptr(), t.calls.len(),
            t.queue.as_ptr(), t.queue.len(),
            row.as_mut_ptr(), row.len(),
        )
    })
}

/// A step's numbers as an answer or a refusal.
fn step(raw: RawAnswer) -> Result<Answer, Refusal> {
    match Refusal::from_number(raw.number) {
        Some(refusal) => Err(refusal),
        None => Ok(Answer::from_numbers(raw.number, raw.detail).unwrap_or_else(|| unlisted(raw.number))),
    }
}

/// Cover's numbers as a block or a refusal.
fn covered(raw: RawCovered) -> Result<Covered, Refusal> {
    accepted(raw.refusal)?;
    let state = u8::try_from(raw.state).ok().and_then(State::from_number);
    let id = u32::try_from(raw.id).ok().map(Id);
    match (id, state) {
        (Some(id), Some(state)) => Ok(Covered { id, state }),
        _ => unlisted(raw.state),
    }
}

/// Map's numbers as the number of blocks or a refusal.
fn mapped(raw: RawMapped) -> Result<usize, Refusal> {
    accepted(raw.refusal)?;
    Ok(raw.blocks)
}

/// The refusal with this number; 0 is none.
fn accepted(number: usize) -> Result<(), Refusal> {
    match Refusal::from_number(number) {
        Some(refusal) => Err(refusal),
        None if number == 0 => Ok(()),
        None => unlisted(number),
    }
}

/// The archive answers only numbers of the header. Another one means that another version of it was linked.
fn unlisted(number: usize) -> ! {
    panic!("the archive answered {number}, which this version of saltbalance.h does not list: link the archive of this version");
}
