//! Arguments of each entry point: mostly sensible for the tables at hand, at times any number.
//!
//! The tables may be damaged, and of any lengths: nothing here relies on them being right.

use super::shapes::wild;
use crate::entry::Entry;
use crate::random::Random;
use crate::rules::lent::{Lent, ALLOCATED, CELLS, DIVIDED, DIVIDING, NOEXIST, RELEASING};

/// A call of the entry point with this place in `KINDS`.
pub fn call(random: &mut Random, lent: &Lent, kind: usize) -> Entry {
    let thread = thread(random, lent);
    match kind {
        0 => Entry::Build,
        1 => Entry::Ask { thread, size: size(random, lent), wait: wait(random) },
        2 => Entry::GoOn { thread },
        3 => Entry::GiveBack { thread, id: id(random, lent, thread) },
        4 => Entry::Switch { thread: any_thread(random, lent) },
        5 => Entry::Tick,
        6 => Entry::Whole,
        7 => Entry::Cover { offset: offset(random, lent) },
        _ => Entry::Map { row: row(random, lent) },
    }
}

/// Mostly the thread that runs.
fn thread(random: &mut Random, lent: &Lent) -> usize {
    match lent.record.running {
        0 => any_thread(random, lent),
        running if random.percent(85) => running as usize - 1,
        _ => any_thread(random, lent),
    }
}

/// Mostly a thread of the shape.
fn any_thread(random: &mut Random, lent: &Lent) -> usize {
    let threads = lent.shape.threads.clamp(1, 8);
    match random.below(16) {
        0 => random.pick(&[threads, threads + 1, 8, 255, 256, 257]),
        1 => wild(random),
        2 => 256 * random.between(1, 8) + random.below(threads),
        _ => random.below(threads),
    }
}

/// A level of the shape, however wrong the shape is.
fn level(random: &mut Random, lent: &Lent) -> usize {
    random.below(lent.shape.levels.clamp(1, 5))
}

/// The size of some level's block, whatever the shape is.
fn block_size(random: &mut Random, lent: &Lent) -> usize {
    lent.shape.top_size >> (2 * level(random, lent))
}

/// Mostly a size up to the top, on either side of a block's size.
fn size(random: &mut Random, lent: &Lent) -> usize {
    let (block, top) = (block_size(random, lent), lent.shape.top_size);
    match random.below(12) {
        0 => random.pick(&[0, 1, top, top.wrapping_add(1), top.wrapping_add(2)]),
        1 => wild(random),
        2 => block.wrapping_add(1 << 32),
        3 | 4 => block,
        5 => block.wrapping_add(1),
        6 => block.wrapping_sub(1),
        _ => random.below(top.clamp(1, 1 << 20)),
    }
}

/// Never, forever, a time, or a number that is no wait.
pub fn wait(random: &mut Random) -> i32 {
    match random.below(20) {
        0..=6 => 0,
        7..=11 => -1,
        12..=14 => random.between(1, 60) as i32,
        15 => random.pick(&[1, 9, 10, 11, 20, 599_990, 599_991, 600_000]),
        16 => random.between(1, 600_000) as i32,
        17 => random.pick(&[-2, 600_001]),
        18 => random.pick(&[-3, 600_002, i32::MIN, i32::MIN + 1, i32::MAX, -65_536]),
        _ => random.number() as i32,
    }
}

/// Mostly the id of a block of the shape: of the asker's, another's, or any block in any state.
fn id(random: &mut Random, lent: &Lent, thread: usize) -> usize {
    match random.below(12) {
        0..=4 => {
            let mine = |owner: u8| owner as usize == thread.wrapping_add(1);
            held(random, lent, mine).unwrap_or_else(|| block_id(random, lent))
        }
        5 | 6 => held(random, lent, |owner| owner != 0).unwrap_or_else(|| block_id(random, lent)),
        7 => in_hand(random, lent).unwrap_or_else(|| block_id(random, lent)),
        8 => block_id(random, lent),
        9 => wild(random),
        _ => nearly_an_id(random, lent),
    }
}

/// The id of some ALLOCATED block whose owner is liked.
pub fn held(random: &mut Random, lent: &Lent, likes: impl Fn(u8) -> bool) -> Option<usize> {
    if !lent.shape.allowed() || !lent.lengths_right() {
        return None;
    }
    let blocks: Vec<(usize, usize)> = lent
        .shape
        .every_block()
        .filter(|&(level, block)| lent.state(level, block) == ALLOCATED && likes(lent.owner(level, block)))
        .collect();
    random.pick_any(&blocks).map(|(level, block)| lent.shape.id(level, block))
}

/// The id of a block in the hand of some call, as the call's cells say.
fn in_hand(random: &mut Random, lent: &Lent) -> Option<usize> {
    let hands: Vec<usize> = lent
        .tables
        .calls
        .chunks_exact(CELLS)
        .filter(|cells| [DIVIDING, RELEASING].contains(&cells[0]) && cells[4] < 16 && cells[5] < 1 << 20)
        .map(|cells| lent.shape.pool % 256 + 256 * cells[4] as usize + 4096 * cells[5] as usize)
        .collect();
    random.pick_any(&hands)
}

/// The id of any block of the shape.
fn block_id(random: &mut Random, lent: &Lent) -> usize {
    let level = level(random, lent);
    let count = lent.shape.tops.clamp(1, 16) << (2 * level);
    lent.shape.pool % 256 + 256 * level + 4096 * random.below(count)
}

/// An id with one part, or the bits behind its parts, outside the pool.
fn nearly_an_id(random: &mut Random, lent: &Lent) -> usize {
    let id = block_id(random, lent);
    let count = lent.shape.tops.clamp(1, 16) << (2 * level(random, lent));
    match random.below(6) {
        0 => id ^ 1,
        1 => id / 256 * 256 + random.below(256),
        2 => (id & !0xF00) + 256 * random.between(lent.shape.levels.min(15), 15),
        3 => id % 4096 + 4096 * count,
        4 => id + (1 << random.between(20, 63)),
        _ => id % 4096 + 4096 * random.below(1 << 20),
    }
}

/// Mostly a byte of the pool.
fn offset(random: &mut Random, lent: &Lent) -> usize {
    let bytes = lent.shape.tops.clamp(1, 16) * lent.shape.top_size.clamp(1, 65_536);
    let block = block_size(random, lent).max(1);
    match random.below(10) {
        0 => random.pick(&[0, 1, bytes - 1]),
        1 => random.pick(&[bytes, bytes + 1, bytes + lent.shape.top_size.min(1 << 20)]),
        2 => wild(random),
        3 => (random.below(bytes) / block * block).wrapping_sub(1),
        4 | 5 => random.below(bytes) / block * block,
        _ => random.below(bytes),
    }
}

/// A row about as long as the map, holding anything.
fn row(random: &mut Random, lent: &Lent) -> Vec<u32> {
    let undivided = lent.tables.states.iter().filter(|&&state| state != DIVIDED && state != NOEXIST).count();
    let length = match random.below(8) {
        0 => 0,
        1 => undivided.saturating_sub(1),
        2 => random.below(undivided + 1),
        3 => undivided + 1,
        4 => undivided + random.below(20),
        5 => lent.tables.states.len(),
        _ => undivided,
    };
    let filling = random.number() as u32;
    (0..length as u32).map(|place| filling.wrapping_add(place)).collect()
}
