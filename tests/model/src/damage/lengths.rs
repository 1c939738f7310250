//! Tables of wrong lengths, and tables lent with another shape.

use super::{either, still_valid, Kind, Leaves};
use crate::generate::shapes::{self, some_length};
use crate::random::Random;
use crate::rules::lent::Lent;

/// A kind of edit that leaves a table of the wrong length.
const fn wrong(name: &'static str, edit: fn(&mut Random, &mut Lent) -> bool) -> Kind {
    Kind { name, leaves: Leaves::WrongLength, edit }
}

pub const KINDS: &[Kind] = &[
    wrong("states longer by one", longer::<0>),
    wrong("states shorter by one", shorter::<0>),
    wrong("states empty", empty::<0>),
    wrong("owners longer by one", longer::<1>),
    wrong("owners shorter by one", shorter::<1>),
    wrong("owners empty", empty::<1>),
    wrong("lists longer by one", longer::<2>),
    wrong("lists shorter by one", shorter::<2>),
    wrong("lists empty", empty::<2>),
    wrong("calls longer by one", longer::<3>),
    wrong("calls shorter by one", shorter::<3>),
    wrong("calls empty", empty::<3>),
    wrong("queue longer by one", longer::<4>),
    wrong("queue shorter by one", shorter::<4>),
    wrong("queue empty", empty::<4>),
    either("some tables of any length", any_lengths),
    Kind { name: "a shape not allowed", leaves: Leaves::NoShape, edit: not_allowed },
    Kind { name: "a shape not allowed, tables of any length", leaves: Leaves::NoShape, edit: nothing_right },
    still_valid("another pool number", another_pool),
    either("another top size", another_top_size),
    either("another allowed shape", another_shape),
];

/// The length of a table, counted as in `Tables`.
fn length(lent: &Lent, table: usize) -> usize {
    let tables = &lent.tables;
    match table {
        0 => tables.states.len(),
        1 => tables.owners.len(),
        2 => tables.lists.len(),
        3 => tables.calls.len(),
        _ => tables.queue.len(),
    }
}

/// Makes a table this long, with zeros at the end where it grows.
fn resize(lent: &mut Lent, table: usize, length: usize) {
    let tables = &mut lent.tables;
    match table {
        0 => tables.states.resize(length, 0),
        1 => tables.owners.resize(length, 0),
        2 => tables.lists.resize(length, 0),
        3 => tables.calls.resize(length, 0),
        _ => tables.queue.resize(length, 0),
    }
}

fn longer<const TABLE: usize>(_: &mut Random, lent: &mut Lent) -> bool {
    resize(lent, TABLE, length(lent, TABLE) + 1);
    true
}

fn shorter<const TABLE: usize>(_: &mut Random, lent: &mut Lent) -> bool {
    resize(lent, TABLE, length(lent, TABLE) - 1);
    true
}

fn empty<const TABLE: usize>(_: &mut Random, lent: &mut Lent) -> bool {
    resize(lent, TABLE, 0);
    true
}

pub fn any_lengths(random: &mut Random, lent: &mut Lent) -> bool {
    for _ in 0..random.between(1, 3) {
        let table = random.below(5);
        let length = if random.percent(30) { length(lent, (table + 1) % 5) } else { some_length(random) };
        resize(lent, table, length);
    }
    true
}

pub fn not_allowed(random: &mut Random, lent: &mut Lent) -> bool {
    lent.shape = shapes::not_allowed(random, &lent.shape);
    true
}

fn nothing_right(random: &mut Random, lent: &mut Lent) -> bool {
    any_lengths(random, lent);
    not_allowed(random, lent)
}

fn another_pool(random: &mut Random, lent: &mut Lent) -> bool {
    lent.shape.pool = random.below(256);
    true
}

fn another_top_size(random: &mut Random, lent: &mut Lent) -> bool {
    let least = 4usize.pow(lent.shape.levels as u32);
    lent.shape.top_size = least * random.between(1, 65_536 / least);
    true
}

fn another_shape(random: &mut Random, lent: &mut Lent) -> bool {
    let other = shapes::allowed(random);
    match random.below(4) {
        0 => lent.shape = other,
        1 => lent.shape.threads = other.threads,
        2 => lent.shape.tops = other.tops,
        _ => {
            lent.shape.levels = other.levels;
            lent.shape.top_size = other.top_size;
        }
    }
    true
}
