//! Things that a good run of calls must meet, beyond each answer's number.

use crate::entry::{After, Entry};
use crate::rules::lent::*;
use crate::rules::shape::Shape;

/// The event of a second merge; which thread merged before is known to the history alone.
pub const SECOND_MERGE: &str = "go on: a second merge of one release";

/// The events' names. Each must occur.
pub const EVENTS: &[&str] = &[
    "ask: a deadline past the clock's end",
    "cover: an ALLOCATED block",
    "cover: a FREE block",
    "cover: a FREEING block",
    "cover: an ALLOCATING block",
    "give back: refused for a FREE block",
    "give back: refused for a DIVIDED block",
    "give back: refused for a NOEXIST block",
    "give back: refused for a FREEING block",
    "give back: refused for an ALLOCATING block",
    "give back: refused for the pool number",
    "give back: refused for the level",
    "give back: refused for the block number",
    "go on: a look finds its target's level",
    "go on: a look finds a level above its target",
    "go on: timed out at the deadline",
    "go on: timed out past the deadline, with room",
    "go on: waiting behind another",
    "go on: a merge from the deepest of several levels",
    "go on: a merge up to a top block",
    SECOND_MERGE,
    "go on: a settle that wakes one",
    "go on: a settle that wakes several",
    "map: a row just long enough",
    "map: a longer row",
    "shape: one top block",
    "shape: 16 top blocks",
    "shape: the least top size",
    "shape: the greatest top size",
    "shape refused: the pool number alone",
    "shape refused: the threads alone",
    "shape refused: the levels alone",
    "shape refused: the top blocks alone",
    "shape refused: the top size alone, zero",
    "shape refused: the top size alone, above the most",
    "shape refused: the top size alone, no multiple",
    "switch: from one thread to another",
    "tick: wakes one",
    "tick: wakes several",
    "tick: wakes some and leaves others",
];

/// The events that this call is, as both sides answered it.
pub fn events(entry: &Entry, before: &Lent, after: &After) -> Vec<&'static str> {
    let [number, detail, state] = after.answer;
    match (entry, number) {
        (_, 1) => refused_shape(&before.shape),
        (Entry::Ask { wait, .. }, 40) => {
            let end = u64::from(u32::MAX);
            let ticks = crate::rules::calls::ticks((*wait).max(0) as u32);
            one_if(u64::from(before.record.clock) + ticks > end, "ask: a deadline past the clock's end")
        }
        (&Entry::GiveBack { id, .. }, 11) => outside(before, id),
        (&Entry::GiveBack { id, .. }, 12) => not_allocated(before, id),
        (&Entry::GoOn { thread }, _) => go_on(before, thread, number, detail),
        (Entry::Switch { .. }, 49) => {
            one_if(before.record.running != 0, "switch: from one thread to another")
        }
        (Entry::Tick, 50) => tick(before.queue_length(), detail),
        (Entry::Cover { .. }, 0) => vec![covered(state)],
        (Entry::Map { row }, 0) if row.len() == detail => vec!["map: a row just long enough"],
        (Entry::Map { .. }, 0) => vec!["map: a longer row"],
        _ => vec![],
    }
}

/// What a history's shape is an example of.
pub fn of_shape(shape: &Shape) -> Vec<&'static str> {
    let least = 4usize.pow(shape.levels as u32);
    let mut events = one_if(shape.tops == 1, "shape: one top block");
    events.extend(one_if(shape.tops == 16, "shape: 16 top blocks"));
    events.extend(one_if(shape.top_size == least, "shape: the least top size"));
    events.extend(one_if(shape.top_size == 65_536, "shape: the greatest top size"));
    events
}

/// The one field for which a shape was refused, if it is one alone: with that field mended the shape is
/// allowed.
fn refused_shape(shape: &Shape) -> Vec<&'static str> {
    let least = 4usize.checked_pow(shape.levels as u32).unwrap_or(0);
    let mended = [
        (Shape { pool: 0, ..*shape }, "shape refused: the pool number alone"),
        (Shape { threads: 1, ..*shape }, "shape refused: the threads alone"),
        (Shape { levels: 1, ..*shape }, "shape refused: the levels alone"),
        (Shape { tops: 1, ..*shape }, "shape refused: the top blocks alone"),
        (Shape { top_size: least, ..*shape }, refused_top_size(shape.top_size)),
    ];
    let mut alone = mended.into_iter().filter(|(shape, _)| shape.allowed()).map(|(_, event)| event);
    alone.next().into_iter().collect()
}

/// How a top size is outside its limits.
fn refused_top_size(top_size: usize) -> &'static str {
    match top_size {
        0 => "shape refused: the top size alone, zero",
        1..=65_536 => "shape refused: the top size alone, no multiple",
        _ => "shape refused: the top size alone, above the most",
    }
}

/// The event, if it is one.
fn one_if(is: bool, event: &'static str) -> Vec<&'static str> {
    if is {
        vec![event]
    } else {
        vec![]
    }
}

/// Which part of an id is outside the pool, if it is one alone.
fn outside(before: &Lent, id: usize) -> Vec<&'static str> {
    let (pool, level) = (id % 256, id / 256 % 16);
    match (pool == before.shape.pool, level < before.shape.levels) {
        (false, true) => vec!["give back: refused for the pool number"],
        (true, false) => vec!["give back: refused for the level"],
        (true, true) => vec!["give back: refused for the block number"],
        (false, false) => vec![],
    }
}

/// The state for which a block was not given back.
fn not_allocated(before: &Lent, id: usize) -> Vec<&'static str> {
    let (level, block) = before.shape.named(id).expect("refusal 11 comes first");
    vec![match before.state(level, block) {
        FREE => "give back: refused for a FREE block",
        DIVIDED => "give back: refused for a DIVIDED block",
        NOEXIST => "give back: refused for a NOEXIST block",
        FREEING => "give back: refused for a FREEING block",
        _ => "give back: refused for an ALLOCATING block",
    }]
}

/// What a step of a call was.
fn go_on(before: &Lent, thread: usize, number: usize, detail: usize) -> Vec<&'static str> {
    match number {
        15 | 41 | 47 => {}
        46 => return one_if(before.queue_length() > 0, "go on: waiting behind another"),
        48 if detail == 1 => return vec!["go on: a settle that wakes one"],
        48 => return one_if(detail > 1, "go on: a settle that wakes several"),
        _ => return vec![],
    }
    let cells = before.cells(thread);
    let target = before.shape.target(cells.size).expect("a valid call's size");
    match number {
        41 if detail == target => vec!["go on: a look finds its target's level"],
        41 => vec!["go on: a look finds a level above its target"],
        15 if u64::from(before.record.clock) == cells.deadline => vec!["go on: timed out at the deadline"],
        15 => {
            let room = (0..=target).any(|level| before.list_length(level) > 0);
            one_if(room, "go on: timed out past the deadline, with room")
        }
        _ => {
            let (level, deepest) = (cells.level as usize, before.shape.deepest());
            let mut events = one_if(level == 1, "go on: a merge up to a top block");
            let from_deepest = level == deepest && deepest > 1;
            events.extend(one_if(from_deepest, "go on: a merge from the deepest of several levels"));
            events
        }
    }
}

/// How many of those waiting a tick woke.
fn tick(waiting: usize, woken: usize) -> Vec<&'static str> {
    let mut events = one_if(woken == 1, "tick: wakes one");
    events.extend(one_if(woken > 1, "tick: wakes several"));
    events.extend(one_if(woken > 0 && woken < waiting, "tick: wakes some and leaves others"));
    events
}

/// The state of a covered block.
fn covered(state: usize) -> &'static str {
    match state {
        0 => "cover: an ALLOCATED block",
        1 => "cover: a FREE block",
        4 => "cover: a FREEING block",
        _ => "cover: an ALLOCATING block",
    }
}
