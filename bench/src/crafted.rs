//! Tables that break one line of validity alone: valid ones, changed in several cells at once so that all other lines hold.

use crate::numbers::stage::{CLOSED, DIVIDING, RELEASING};
use crate::numbers::state::*;
use crate::shape::Shape;
use crate::tables::{Tables, CELLS};

/// A change of valid tables; answers whether there was something to change.
pub type Change = fn(Shape, &mut Tables) -> Option<()>;

/// All changes.
pub const CHANGES: [Change; 7] =
    [top_lost, quarters_unmerged, freeing_alone, allocating_alone, state_unknown, queued_twice, one_hand_for_two];

/// Takes the last of the top blocks' list away.
fn last_top(shape: Shape, t: &mut Tables) -> Option<usize> {
    let left = t.lists[0].checked_sub(1)?;
    t.lists[0] = left;
    Some(usize::from(std::mem::take(&mut t.lists[shape.levels + usize::from(left)])))
}

/// A FREE top block is gone.
fn top_lost(shape: Shape, t: &mut Tables) -> Option<()> {
    let top = last_top(shape, t)?;
    t.states[top] = NOEXIST;
    Some(())
}

/// A FREE top block is divided, and all its quarters are FREE.
fn quarters_unmerged(shape: Shape, t: &mut Tables) -> Option<()> {
    if shape.levels < 2 {
        return None;
    }
    let top = last_top(shape, t)?;
    t.states[top] = DIVIDED;
    for quarter in 4 * top..4 * top + 4 {
        let members = usize::from(t.lists[1]);
        t.states[shape.tops + quarter] = FREE;
        t.lists[shape.levels + shape.tops + members] = quarter as u16;
        t.lists[1] += 1;
    }
    Some(())
}

/// A held block has another state, and no owner any more.
fn held_becomes(t: &mut Tables, state: u8) -> Option<()> {
    let place = t.states.iter().position(|&state| state == ALLOCATED)?;
    t.states[place] = state;
    t.owners[place] = 0;
    Some(())
}

/// A block is FREEING without a call.
fn freeing_alone(_: Shape, t: &mut Tables) -> Option<()> {
    held_becomes(t, FREEING)
}

/// A block is ALLOCATING without a call.
fn allocating_alone(_: Shape, t: &mut Tables) -> Option<()> {
    held_becomes(t, ALLOCATING)
}

/// A block is in a state that there is not.
fn state_unknown(_: Shape, t: &mut Tables) -> Option<()> {
    held_becomes(t, ALLOCATING + 3)
}

/// A waiting thread stands in the queue twice.
fn queued_twice(shape: Shape, t: &mut Tables) -> Option<()> {
    let end = usize::from(t.queue[0]);
    if end == 0 || end == shape.threads {
        return None;
    }
    t.queue[end + 1] = t.queue[1];
    t.queue[0] += 1;
    Some(())
}

/// Two calls have the same block in hand.
fn one_hand_for_two(shape: Shape, t: &mut Tables) -> Option<()> {
    let with = |stages: &[u64]| (0..shape.threads).find(|&thread| stages.contains(&t.stage(thread)));
    let (from, to) = (with(&[DIVIDING, RELEASING])?, with(&[CLOSED])?);
    t.calls.copy_within(CELLS * from..CELLS * (from + 1), CELLS * to);
    Some(())
}
