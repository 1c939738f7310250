//! Build, ask, give back, switch and tick, each with its refusals in the table's order.

use super::answers::*;
use super::lent::*;
use super::{check_lengths, check_tables};

/// Ticks of 10 ms for a time in milliseconds: "milliseconds / 10 rounded up".
pub fn ticks(milliseconds: u32) -> u64 {
    u64::from(milliseconds).div_ceil(10)
}

/// Refusals 1 to 4 and 5: the tables are right, and this is a thread of the shape, and it runs.
pub fn check_runner(lent: &Lent, thread: usize) -> Result<(), Refusal> {
    check_tables(lent)?;
    if thread >= lent.shape.threads {
        return Err(NO_THREAD);
    }
    if lent.record.running as usize != thread + 1 {
        return Err(NOT_RUNNING);
    }
    Ok(())
}

/// "Fresh: top blocks FREE, listed 0 upward; no calls; clock 0; nobody running."
pub fn build(lent: &mut Lent) -> Outcome {
    check_lengths(lent)?;
    lent.tables = Tables::zeros(&lent.shape);
    for (level, block) in lent.shape.every_block() {
        lent.set_state(level, block, if level == 0 { FREE } else { NOEXIST });
    }
    let tops: Vec<usize> = (0..lent.shape.tops).collect();
    lent.set_list(0, &tops);
    lent.record = Record { clock: 0, running: 0 };
    plain(BUILT)
}

/// Ask: "the call becomes *asked*".
pub fn ask(lent: &mut Lent, thread: usize, size: usize, wait: i32) -> Outcome {
    check_runner(lent, thread)?;
    if lent.cells(thread).stage != CLOSED {
        return Err(CALL_OPEN);
    }
    if size > lent.shape.top_size {
        return Err(SIZE_ABOVE_TOP);
    }
    if !(-1..=600_000).contains(&wait) {
        return Err(WAIT_OUTSIDE);
    }
    let (kind, deadline) = match wait {
        -1 => (FOREVER, 0),
        0 => (NEVER, 0),
        time => (TIMED, u64::from(lent.record.clock) + ticks(time as u32)),
    };
    let asked = Cells { stage: ASKED, size: size as u64, kind, deadline, ..Cells::default() };
    lent.set_cells(thread, asked);
    plain(OPENED)
}

/// Give back: "the block becomes FREEING without owner, the call *releasing*".
pub fn give_back(lent: &mut Lent, thread: usize, id: usize) -> Outcome {
    check_runner(lent, thread)?;
    if lent.cells(thread).stage != CLOSED {
        return Err(CALL_OPEN);
    }
    let (level, block) = lent.shape.named(id).ok_or(ID_OUTSIDE)?;
    if lent.state(level, block) != ALLOCATED {
        return Err(NOT_ALLOCATED);
    }
    if lent.owner(level, block) as usize != thread + 1 {
        return Err(NOT_OWNER);
    }
    lent.set_state(level, block, FREEING);
    lent.set_owner(level, block, 0);
    let (level, block) = (level as u64, block as u64);
    lent.set_cells(thread, Cells { stage: RELEASING, level, block, ..Cells::default() });
    plain(OPENED)
}

/// Switch: "that thread runs; the one before stays ready".
pub fn switch(lent: &mut Lent, thread: usize) -> Outcome {
    check_tables(lent)?;
    if thread >= lent.shape.threads {
        return Err(NO_THREAD);
    }
    if lent.cells(thread).stage == WAITING {
        return Err(IS_BLOCKED);
    }
    lent.record.running = thread as u32 + 1;
    plain(SWITCHED)
}

/// Tick: "clock + 1; waiting threads whose deadline is the new clock become ready and *asked*, and leave
/// the queue, the rest keeping their order".
pub fn tick(lent: &mut Lent) -> Outcome {
    check_tables(lent)?;
    lent.record.clock = lent.record.clock.checked_add(1).ok_or(CLOCK_AT_END)?;
    let clock = u64::from(lent.record.clock);
    let is_due = |lent: &Lent, thread: usize| {
        let cells = lent.cells(thread);
        cells.kind == TIMED && cells.deadline == clock
    };
    let (due, rest): (Vec<usize>, Vec<usize>) =
        lent.queue().into_iter().partition(|&thread| is_due(lent, thread));
    wake(lent, &due);
    lent.set_queue(&rest);
    with_detail(TICKED, due.len())
}

/// These waiting threads become ready and *asked*; the caller takes them from the queue.
pub fn wake(lent: &mut Lent, threads: &[usize]) {
    for &thread in threads {
        let cells = lent.cells(thread);
        lent.set_cells(thread, Cells { stage: ASKED, ..cells });
    }
}
