//! Edits of the threads' calls.

use super::blocks::some_block;
use super::{broken, either, still_valid, Kind};
use crate::generate::states::{some_deadline, some_size};
use crate::random::Random;
use crate::rules::lent::*;

pub const KINDS: &[Kind] = &[
    broken("a field that the stage doesn't use", unused_field),
    broken("a stage above 5", stage_above),
    broken("a kind of wait above 2", kind_above),
    either("another stage", another_stage),
    broken("a size above the top size", size_above),
    either("another size", another_size),
    broken("a deadline too far", deadline_too_far),
    still_valid("the furthest deadline", deadline_furthest),
    broken("a deadline at or before the clock while waiting", deadline_come),
    still_valid("another deadline", another_deadline),
    broken("a found level deeper than the target", found_too_deep),
    still_valid("another found level", another_found_level),
    broken("a block in hand that is no block of the shape", hand_outside),
    broken("a call opened on no block of the shape", opened_outside),
    broken("a block in hand in another state", hand_elsewhere),
    broken("a call opened on a block in another state", opened_elsewhere),
    broken("a block in hand deeper than its target", hand_too_deep),
    broken("two calls on one block", two_on_one),
    broken("a block in nobody's hand", let_go),
    broken("dividing and releasing exchanged", exchanged),
    broken("a call that may not wait is waiting", may_not_wait),
    still_valid("another kind of wait", another_kind),
    either("a cell above what it may hold by a power of two", cell_and_power),
    either("any cells of a call", any_cells),
    still_valid("a call without a block in hand closed or opened", closed_or_opened),
];

/// Some thread whose call is at one of these stages.
fn thread_at(random: &mut Random, lent: &Lent, stages: &[u64]) -> Option<usize> {
    let threads: Vec<usize> =
        (0..lent.shape.threads).filter(|&thread| stages.contains(&lent.cells(thread).stage)).collect();
    random.pick_any(&threads)
}

/// Changes the call of some thread at one of these stages; no if there is none, or no place for it.
fn change(
    random: &mut Random,
    lent: &mut Lent,
    stages: &[u64],
    edit: impl Fn(&mut Random, &Lent, Cells) -> Option<Cells>,
) -> bool {
    let Some(thread) = thread_at(random, lent, stages) else { return false };
    let Some(cells) = edit(random, lent, lent.cells(thread)) else { return false };
    lent.set_cells(thread, cells);
    true
}

/// The places of the fields that this call's stage doesn't use.
fn unused(cells: &Cells) -> &'static [usize] {
    match (cells.stage, cells.kind) {
        (CLOSED, _) => &[1, 2, 3, 4, 5],
        (ASKED | WAITING, TIMED) => &[4, 5],
        (ASKED | WAITING, _) => &[3, 4, 5],
        (FOUND, TIMED) => &[5],
        (FOUND, _) => &[3, 5],
        (DIVIDING, _) => &[2, 3],
        _ => &[1, 2, 3],
    }
}

fn unused_field(random: &mut Random, lent: &mut Lent) -> bool {
    let thread = random.below(lent.shape.threads);
    let field = random.pick(unused(&lent.cells(thread)));
    lent.tables.calls[CELLS * thread + field] = random.pick(&[1, 2, 256, 65_536, 1 << 32, u64::MAX]);
    true
}

fn stage_above(random: &mut Random, lent: &mut Lent) -> bool {
    let thread = random.below(lent.shape.threads);
    let stage = lent.cells(thread).stage;
    let above = [6, 7, 8 + stage, 256 + stage, 65_536 + stage, (1 << 32) + stage, u64::MAX];
    lent.tables.calls[CELLS * thread] = random.pick(&above);
    true
}

fn kind_above(random: &mut Random, lent: &mut Lent) -> bool {
    change(random, lent, &[ASKED, FOUND, WAITING], |random, _, cells| {
        let above = [3, 4, 4 + cells.kind, 256 + cells.kind, (1 << 32) + cells.kind, u64::MAX];
        Some(Cells { kind: random.pick(&above), ..cells })
    })
}

fn another_stage(random: &mut Random, lent: &mut Lent) -> bool {
    let thread = random.below(lent.shape.threads);
    let cells = lent.cells(thread);
    let stage = (cells.stage + random.between(1, 5) as u64) % 6;
    lent.set_cells(thread, Cells { stage, ..cells });
    true
}

fn size_above(random: &mut Random, lent: &mut Lent) -> bool {
    change(random, lent, &[ASKED, FOUND, WAITING, DIVIDING], |random, lent, cells| {
        let top = lent.shape.top_size as u64;
        let above = [top + 1, top + 1, 4 * top, (1 << 32) + cells.size, 1 << 63, u64::MAX];
        Some(Cells { size: random.pick(&above), ..cells })
    })
}

fn another_size(random: &mut Random, lent: &mut Lent) -> bool {
    change(random, lent, &[ASKED, FOUND, WAITING, DIVIDING], |random, lent, cells| {
        Some(Cells { size: some_size(random, lent), ..cells })
    })
}

/// Changes the deadline of some timed call at one of these stages.
fn change_deadline(
    random: &mut Random,
    lent: &mut Lent,
    stages: &[u64],
    edit: impl Fn(&mut Random, &Lent, u64) -> u64,
) -> bool {
    change(random, lent, stages, |random, lent, cells| {
        let deadline = edit(random, lent, cells.stage);
        (cells.kind == TIMED).then_some(Cells { deadline, ..cells })
    })
}

fn deadline_too_far(random: &mut Random, lent: &mut Lent) -> bool {
    change_deadline(random, lent, &[ASKED, FOUND, WAITING], |random, lent, _| {
        let furthest = u64::from(lent.record.clock) + 60_000;
        random.pick(&[furthest + 1, furthest + 1, furthest + (1 << 32), 1 << 63, u64::MAX])
    })
}

fn deadline_furthest(random: &mut Random, lent: &mut Lent) -> bool {
    change_deadline(random, lent, &[ASKED, FOUND, WAITING], |_, lent, _| {
        u64::from(lent.record.clock) + 60_000
    })
}

fn deadline_come(random: &mut Random, lent: &mut Lent) -> bool {
    change_deadline(random, lent, &[WAITING], |random, lent, _| {
        let clock = u64::from(lent.record.clock);
        random.pick(&[clock, clock, clock.saturating_sub(1), 0])
    })
}

fn another_deadline(random: &mut Random, lent: &mut Lent) -> bool {
    change_deadline(random, lent, &[ASKED, FOUND, WAITING], some_deadline)
}

fn found_too_deep(random: &mut Random, lent: &mut Lent) -> bool {
    change(random, lent, &[FOUND], |random, lent, cells| {
        let target = lent.shape.target(cells.size)? as u64;
        let deeper = [target + 1, target + 1, target + 2, 256 + target, 1 << 32, u64::MAX];
        Some(Cells { level: random.pick(&deeper), ..cells })
    })
}

fn another_found_level(random: &mut Random, lent: &mut Lent) -> bool {
    change(random, lent, &[FOUND], |random, lent, cells| {
        let target = lent.shape.target(cells.size)?;
        Some(Cells { level: random.between(0, target) as u64, ..cells })
    })
}

/// A hand beside this one that is outside the shape, in its level or in its block number.
fn outside(random: &mut Random, lent: &Lent, cells: Cells) -> Cells {
    let (levels, count) = (lent.shape.levels as u64, lent.shape.count(cells.level as usize) as u64);
    if random.percent(50) {
        let above = [levels, levels + 1, 256 + cells.level, (1 << 32) + cells.level, u64::MAX];
        Cells { level: random.pick(&above), ..cells }
    } else {
        let above = [count, count + cells.block, 65_536 + cells.block, 1 << 63, u64::MAX];
        Cells { block: random.pick(&above), ..cells }
    }
}

/// A dividing or releasing call for the smallest block, with this one in hand.
fn opened(random: &mut Random, level: usize, block: usize) -> Cells {
    let stage = random.pick(&[DIVIDING, RELEASING]);
    Cells { stage, level: level as u64, block: block as u64, ..Cells::default() }
}

fn hand_outside(random: &mut Random, lent: &mut Lent) -> bool {
    change(random, lent, &[DIVIDING, RELEASING], |random, lent, cells| Some(outside(random, lent, cells)))
}

fn opened_outside(random: &mut Random, lent: &mut Lent) -> bool {
    change(random, lent, &[CLOSED, ASKED, FOUND], |random, lent, _| {
        let level = random.below(lent.shape.levels);
        let block = random.below(lent.shape.count(level));
        let inside = opened(random, level, block);
        Some(outside(random, lent, inside))
    })
}

fn opened_elsewhere(random: &mut Random, lent: &mut Lent) -> bool {
    change(random, lent, &[CLOSED, ASKED, FOUND], |random, lent, _| {
        let (level, block) = some_block(random, lent, |level, block| {
            ![ALLOCATING, FREEING].contains(&lent.state(level, block))
        })?;
        Some(opened(random, level, block))
    })
}

fn hand_elsewhere(random: &mut Random, lent: &mut Lent) -> bool {
    change(random, lent, &[DIVIDING, RELEASING], |random, lent, cells| {
        let here = (cells.level as usize, cells.block as usize);
        let (level, block) = some_block(random, lent, |level, block| (level, block) != here)?;
        Some(Cells { level: level as u64, block: block as u64, ..cells })
    })
}

fn hand_too_deep(random: &mut Random, lent: &mut Lent) -> bool {
    change(random, lent, &[DIVIDING], |random, lent, cells| {
        if cells.level == 0 {
            return None;
        }
        let (size, top) = (lent.shape.size(cells.level as usize), lent.shape.top_size);
        let any = random.between(size + 1, top);
        Some(Cells { size: random.pick(&[size + 1, top, any]) as u64, ..cells })
    })
}

fn two_on_one(random: &mut Random, lent: &mut Lent) -> bool {
    let (Some(one), Some(other)) = (
        thread_at(random, lent, &[DIVIDING, RELEASING]),
        thread_at(random, lent, &[CLOSED, ASKED, FOUND, DIVIDING, RELEASING]),
    ) else {
        return false;
    };
    let cells = lent.cells(one);
    lent.set_cells(other, cells);
    one != other
}

fn let_go(random: &mut Random, lent: &mut Lent) -> bool {
    change(random, lent, &[DIVIDING, RELEASING], |_, _, _| Some(Cells::default()))
}

fn exchanged(random: &mut Random, lent: &mut Lent) -> bool {
    change(random, lent, &[DIVIDING, RELEASING], |_, _, cells| {
        let stage = if cells.stage == DIVIDING { RELEASING } else { DIVIDING };
        Some(Cells { stage, size: 0, ..cells })
    })
}

fn may_not_wait(random: &mut Random, lent: &mut Lent) -> bool {
    change(random, lent, &[WAITING], |_, _, cells| Some(Cells { kind: NEVER, deadline: 0, ..cells }))
}

fn another_kind(random: &mut Random, lent: &mut Lent) -> bool {
    change(random, lent, &[ASKED, FOUND, WAITING], |random, lent, cells| {
        let kinds: &[u64] = if cells.stage == WAITING { &[FOREVER, TIMED] } else { &[NEVER, FOREVER, TIMED] };
        let kind = random.pick(kinds);
        let deadline = if kind == TIMED { some_deadline(random, lent, cells.stage) } else { 0 };
        Some(Cells { kind, deadline, ..cells })
    })
}

fn cell_and_power(random: &mut Random, lent: &mut Lent) -> bool {
    let place = random.below(lent.tables.calls.len());
    let power = random.pick(&[8, 16, 31, 32, 33, 48, 63]);
    lent.tables.calls[place] = lent.tables.calls[place].wrapping_add(1 << power);
    true
}

fn any_cells(random: &mut Random, lent: &mut Lent) -> bool {
    let thread = random.below(lent.shape.threads);
    for place in CELLS * thread..CELLS * (thread + 1) {
        let any = random.number();
        lent.tables.calls[place] = random.pick(&[any % 6, any % 3, 0, any % 100_000, any]);
    }
    true
}

fn closed_or_opened(random: &mut Random, lent: &mut Lent) -> bool {
    change(random, lent, &[CLOSED, ASKED, FOUND], |random, lent, cells| {
        if cells.stage != CLOSED {
            return Some(Cells::default());
        }
        let size = some_size(random, lent);
        Some(Cells { stage: ASKED, size, kind: random.pick(&[NEVER, FOREVER]), ..cells })
    })
}
