//! Go on: the next step of the running thread's call, by the call's stage.

use super::answers::*;
use super::calls::{check_runner, wake};
use super::lent::*;

/// The next step of this thread's call.
pub fn go_on(lent: &mut Lent, thread: usize) -> Outcome {
    check_runner(lent, thread)?;
    match lent.cells(thread).stage {
        CLOSED => Err(NO_CALL),
        ASKED => look(lent, thread),
        FOUND => take(lent, thread),
        DIVIDING => divide(lent, thread),
        RELEASING => release(lent, thread),
        stage => unreachable!("the running thread is not blocked, yet its stage is {stage}"),
    }
}

/// Closes the call: all six cells are cleared.
fn close(lent: &mut Lent, thread: usize) {
    lent.set_cells(thread, Cells::default());
}

/// The level for the size this call asked; in valid tables there always is one.
fn target(lent: &Lent, cells: &Cells) -> usize {
    lent.shape.target(cells.size).expect("a valid call's size is at most the top size")
}

/// *asked*, look: time out, find a level, or have none.
fn look(lent: &mut Lent, thread: usize) -> Outcome {
    let cells = lent.cells(thread);
    let clock = u64::from(lent.record.clock);
    if cells.kind == TIMED && clock > cells.deadline {
        close(lent, thread);
        return Err(TIMED_OUT);
    }
    let has_free = |level: &usize| lent.states_of(*level).contains(&FREE);
    let deepest_free = (0..=target(lent, &cells)).rev().find(has_free);
    match deepest_free {
        Some(level) => {
            lent.set_cells(thread, Cells { stage: FOUND, level: level as u64, ..cells });
            with_detail(FOUND_LEVEL, level)
        }
        None => look_in_vain(lent, thread),
    }
}

/// No level has a FREE block: "a no-wait call ends with no room; a timed call with clock at its deadline
/// ends, timed out; any other joins the queue's end, blocked, and nobody runs".
fn look_in_vain(lent: &mut Lent, thread: usize) -> Outcome {
    let cells = lent.cells(thread);
    if cells.kind == NEVER {
        close(lent, thread);
        return Err(NO_ROOM);
    }
    if cells.kind == TIMED && u64::from(lent.record.clock) == cells.deadline {
        close(lent, thread);
        return Err(TIMED_OUT);
    }
    lent.set_cells(thread, Cells { stage: WAITING, ..cells });
    let mut queue = lent.queue();
    queue.push(thread);
    lent.set_queue(&queue);
    lent.record.running = 0;
    plain(NOW_WAITING)
}

/// *found*, take: "the first of that level's list becomes ALLOCATING and the call *dividing*. If the
/// list has emptied, the call is *asked* again."
fn take(lent: &mut Lent, thread: usize) -> Outcome {
    let cells = lent.cells(thread);
    let level = cells.level as usize;
    let mut list = lent.list(level);
    if list.is_empty() {
        lent.set_cells(thread, Cells { stage: ASKED, level: 0, ..cells });
        return plain(AGAIN);
    }
    let block = list.remove(0);
    lent.set_list(level, &list);
    lent.set_state(level, block, ALLOCATING);
    let (size, block_cell) = (cells.size, block as u64);
    let dividing = Cells { stage: DIVIDING, size, level: cells.level, block: block_cell, ..Cells::default() };
    lent.set_cells(thread, dividing);
    with_detail(TAKEN, lent.shape.id(level, block))
}

/// *dividing*: split above the target, grant at the target.
fn divide(lent: &mut Lent, thread: usize) -> Outcome {
    let cells = lent.cells(thread);
    let (level, block) = (cells.level as usize, cells.block as usize);
    if level < target(lent, &cells) {
        split(lent, thread, level, block)
    } else {
        lent.set_state(level, block, ALLOCATED);
        lent.set_owner(level, block, thread as u8 + 1);
        close(lent, thread);
        with_detail(GRANTED, lent.shape.id(level, block))
    }
}

/// "The block becomes DIVIDED, its first quarter ALLOCATING and in hand, the other three FREE, appended
/// in ascending order."
fn split(lent: &mut Lent, thread: usize, level: usize, block: usize) -> Outcome {
    let (deeper, first) = (level + 1, 4 * block);
    lent.set_state(level, block, DIVIDED);
    lent.set_state(deeper, first, ALLOCATING);
    let mut list = lent.list(deeper);
    for quarter in first + 1..first + 4 {
        lent.set_state(deeper, quarter, FREE);
        list.push(quarter);
    }
    lent.set_list(deeper, &list);
    let cells = lent.cells(thread);
    lent.set_cells(thread, Cells { level: deeper as u64, block: first as u64, ..cells });
    with_detail(SPLIT, lent.shape.id(deeper, first))
}

/// *releasing*: "below level 0 with its three buddies FREE, merge"; otherwise settle.
fn release(lent: &mut Lent, thread: usize) -> Outcome {
    let cells = lent.cells(thread);
    let (level, block) = (cells.level as usize, cells.block as usize);
    let first = block / 4 * 4;
    let buddies: Vec<usize> = (first..first + 4).filter(|&buddy| buddy != block).collect();
    if level > 0 && buddies.iter().all(|&buddy| lent.state(level, buddy) == FREE) {
        merge(lent, thread, level, block)
    } else {
        settle(lent, thread, level, block)
    }
}

/// The buddies "leave the list, the rest keeping its order, all four become NOEXIST, the parent FREEING
/// and in hand".
fn merge(lent: &mut Lent, thread: usize, level: usize, block: usize) -> Outcome {
    let parent = block / 4;
    let four = 4 * parent..4 * parent + 4;
    let mut list = lent.list(level);
    list.retain(|member| !four.contains(member));
    lent.set_list(level, &list);
    for quarter in four {
        lent.set_state(level, quarter, NOEXIST);
    }
    lent.set_state(level - 1, parent, FREEING);
    let cells = lent.cells(thread);
    lent.set_cells(thread, Cells { level: level as u64 - 1, block: parent as u64, ..cells });
    with_detail(MERGED, lent.shape.id(level - 1, parent))
}

/// "FREE, appended to its list, call closed, every waiting thread ready and *asked*, the queue empty."
fn settle(lent: &mut Lent, thread: usize, level: usize, block: usize) -> Outcome {
    lent.set_state(level, block, FREE);
    let mut list = lent.list(level);
    list.push(block);
    lent.set_list(level, &list);
    close(lent, thread);
    let woken = lent.queue();
    wake(lent, &woken);
    lent.set_queue(&[]);
    with_detail(SETTLED, woken.len())
}
