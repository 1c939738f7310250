//! Records of a script: good ones that follow a history, and their bytes.

use super::history::{next, Manners};
use super::shapes;
use crate::entry::{by_model, After, Entry};
use crate::random::Random;
use crate::rules::answers::OPENED;
use crate::rules::lent::{Lent, Record, Tables};
use crate::rules::shape::Shape;
use crate::script::{ASK_TAG, GIVE_TAG, GO_ON_TAG, SHAPE_TAG, SWITCH_TAG, TICK_TAG, WHOLE_TAG};

/// The tags of the records behind the shape, each with the lengths that its value may have.
pub const STEPS: &[(u8, &[usize])] = &[
    (ASK_TAG, &[5, 9]),
    (GO_ON_TAG, &[1]),
    (GIVE_TAG, &[5]),
    (SWITCH_TAG, &[1]),
    (TICK_TAG, &[0]),
    (WHOLE_TAG, &[0]),
];

/// A record: a one-byte tag, a two-byte length, the value.
pub fn record(tag: u8, value: &[u8]) -> Vec<u8> {
    let length = (value.len() as u16).to_le_bytes();
    [&[tag], &length[..], value].concat()
}

/// The record of a shape; numbers too large for their bytes lose their upper part.
pub fn shape_record(shape: &Shape) -> Vec<u8> {
    let mut value = vec![shape.pool as u8, shape.threads as u8, shape.levels as u8, shape.tops as u8];
    value.extend((shape.top_size as u32).to_le_bytes());
    record(SHAPE_TAG, &value)
}

/// The same call with numbers that fit a record, if a record can ask for it.
fn fitted(entry: Entry) -> Option<Entry> {
    let byte = |number: usize| number & 0xFF;
    let four = |number: usize| number & 0xFFFF_FFFF;
    Some(match entry {
        Entry::Ask { thread, size, wait } => Entry::Ask { thread: byte(thread), size: four(size), wait },
        Entry::GoOn { thread } => Entry::GoOn { thread: byte(thread) },
        Entry::GiveBack { thread, id } => Entry::GiveBack { thread: byte(thread), id: four(id) },
        Entry::Switch { thread } => Entry::Switch { thread: byte(thread) },
        Entry::Tick => Entry::Tick,
        Entry::Whole => Entry::Whole,
        Entry::Build | Entry::Cover { .. } | Entry::Map { .. } => return None,
    })
}

/// The bytes of a fitted call. An ask that waits forever may leave its wait out.
fn bytes(random: &mut Random, entry: &Entry) -> Vec<u8> {
    match *entry {
        Entry::Ask { thread, size, wait } => {
            let mut value = vec![thread as u8];
            value.extend((size as u32).to_le_bytes());
            if wait != -1 || random.percent(50) {
                value.extend(wait.to_le_bytes());
            }
            record(ASK_TAG, &value)
        }
        Entry::GoOn { thread } => record(GO_ON_TAG, &[thread as u8]),
        Entry::GiveBack { thread, id } => {
            let mut value = vec![thread as u8];
            value.extend((id as u32).to_le_bytes());
            record(GIVE_TAG, &value)
        }
        Entry::Switch { thread } => record(SWITCH_TAG, &[thread as u8]),
        Entry::Tick => record(TICK_TAG, &[]),
        _ => record(WHOLE_TAG, &[]),
    }
}

/// A script under way: its bytes, and the pool as they leave it.
pub struct Writer {
    pub script: Vec<u8>,
    lent: Lent,
    manners: Manners,
}

impl Writer {
    /// A script with its shape.
    pub fn begun(random: &mut Random, shape: Shape) -> Writer {
        let record = Record { clock: 0, running: 0 };
        let mut lent = Lent { shape, record, tables: Tables::zeros(&shape) };
        lent.tables = by_model(&Entry::Build, &lent).tables;
        Writer { script: shape_record(&shape), lent, manners: Manners::some(random) }
    }

    /// Writes the next record of a history.
    pub fn step(&mut self, random: &mut Random) {
        if random.once_in(60) {
            self.manners = Manners::some(random);
        }
        let Some(entry) = fitted(next(random, &self.lent, &self.manners)) else { return };
        let after = by_model(&entry, &self.lent);
        if self.would_hang(&entry, &after) {
            return;
        }
        self.script.extend(bytes(random, &entry));
        (self.lent.record, self.lent.tables) = (after.record, after.tables);
    }

    /// Does a thread that holds a block open a call with a long wait? Others might then wait for it in
    /// vain, and the rest of a long script would be all alike.
    fn would_hang(&self, entry: &Entry, after: &After) -> bool {
        let &Entry::Ask { thread, wait, .. } = entry else { return false };
        let holds = self.lent.tables.owners.iter().any(|&owner| owner as usize == thread + 1);
        after.answer[0] == OPENED && holds && !(0..=100).contains(&wait)
    }

    /// Writes records until the script has at least so many bytes.
    pub fn up_to(mut self, random: &mut Random, bytes: usize) -> Vec<u8> {
        while self.script.len() < bytes {
            self.step(random);
        }
        self.script
    }
}

/// A good script of about so many bytes; a longer one has a smaller pool.
pub fn good(random: &mut Random, bytes: usize) -> Vec<u8> {
    let mut shape = shapes::allowed(random);
    while shape.blocks() > 10_000_000 / bytes.pow(2) + 25 {
        shape = shapes::allowed(random);
    }
    Writer::begun(random, shape).up_to(random, bytes)
}
