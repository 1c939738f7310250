//! Edits without a plan: arbitrary numbers in some places or in all.

use super::{either, Kind};
use crate::generate::states;
use crate::random::Random;
use crate::rules::lent::Lent;

pub const KINDS: &[Kind] = &[
    either("a few arbitrary cells", few_cells),
    either("small numbers in all of one table", one_table_small),
    either("arbitrary numbers in all of one table", one_table),
    either("small numbers everywhere", everywhere_small),
    either("arbitrary numbers everywhere", everywhere),
    either("zeros in all of one table", one_table_zeros),
    either("one table of another valid state", exchanged),
];

/// Writes a number made for each cell into all of this table, counted as in `Tables`, the record last.
fn fill(random: &mut Random, lent: &mut Lent, table: usize, number: fn(&mut Random) -> u64) {
    let tables = &mut lent.tables;
    match table {
        0 => tables.states.iter_mut().for_each(|cell| *cell = number(random) as u8),
        1 => tables.owners.iter_mut().for_each(|cell| *cell = number(random) as u8),
        2 => tables.lists.iter_mut().for_each(|cell| *cell = number(random) as u16),
        3 => tables.calls.iter_mut().for_each(|cell| *cell = number(random)),
        4 => tables.queue.iter_mut().for_each(|cell| *cell = number(random) as u8),
        _ => {
            lent.record.clock = number(random) as u32;
            lent.record.running = number(random) as u32;
        }
    }
}

/// A number that is small as often as not.
fn small(random: &mut Random) -> u64 {
    random.number() % 6
}

/// Any number.
fn any(random: &mut Random) -> u64 {
    random.number() >> random.below(64)
}

pub fn few_cells(random: &mut Random, lent: &mut Lent) -> bool {
    for _ in 0..random.between(1, 3) {
        let number = if random.percent(50) { small(random) } else { any(random) };
        let (table, place) = (random.below(6), random.number() as usize);
        let tables = &mut lent.tables;
        match table {
            0 => put(&mut tables.states, place, number as u8),
            1 => put(&mut tables.owners, place, number as u8),
            2 => put(&mut tables.lists, place, number as u16),
            3 => put(&mut tables.calls, place, number),
            4 => put(&mut tables.queue, place, number as u8),
            _ if place % 2 == 0 => lent.record.clock = number as u32,
            _ => lent.record.running = number as u32,
        }
    }
    true
}

/// Writes a number at some place of a table that has one.
fn put<T>(table: &mut [T], place: usize, number: T) {
    if !table.is_empty() {
        let place = place % table.len();
        table[place] = number;
    }
}

fn one_table_small(random: &mut Random, lent: &mut Lent) -> bool {
    let table = random.below(6);
    fill(random, lent, table, small);
    true
}

fn one_table(random: &mut Random, lent: &mut Lent) -> bool {
    let table = random.below(6);
    fill(random, lent, table, any);
    true
}

fn everywhere_small(random: &mut Random, lent: &mut Lent) -> bool {
    (0..6).for_each(|table| fill(random, lent, table, small));
    true
}

pub fn everywhere(random: &mut Random, lent: &mut Lent) -> bool {
    (0..6).for_each(|table| fill(random, lent, table, any));
    true
}

fn one_table_zeros(random: &mut Random, lent: &mut Lent) -> bool {
    let table = random.below(6);
    fill(random, lent, table, |_| 0);
    true
}

fn exchanged(random: &mut Random, lent: &mut Lent) -> bool {
    let other = states::valid(random, &lent.shape);
    match random.below(6) {
        0 => lent.tables.states = other.tables.states,
        1 => lent.tables.owners = other.tables.owners,
        2 => lent.tables.lists = other.tables.lists,
        3 => lent.tables.calls = other.tables.calls,
        4 => lent.tables.queue = other.tables.queue,
        _ => lent.record = other.record,
    }
    true
}
