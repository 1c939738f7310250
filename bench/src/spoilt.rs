//! Tables that somebody wrote into, tables of wrong lengths and shapes that are not allowed: all pools must refuse alike.

use crate::call::Pool;
use crate::crafted::CHANGES;
use crate::kind::Kind;
use crate::numbers::refusal::NOT_VALID;
use crate::random::Random;
use crate::shape::Shape;
use crate::starts::{Start, Starts};
use crate::tables::Tables;
use crate::together::Together;

/// How many spoilt tables are tried for each start.
const TRIED: usize = 100;

/// A value for a cell: a small one, one near what stands there, or any.
fn value(random: &mut Random, old: u64) -> u64 {
    match random.below(4) {
        0 => old.wrapping_add(1),
        1 => old.wrapping_sub(1),
        2 => random.below(8) as u64,
        _ => random.below(usize::MAX) as u64,
    }
}

/// Writes into one cell of a table, if it has any.
macro_rules! spoil {
    ($random:expr, $table:expr, $kind:ty) => {
        if !$table.is_empty() {
            let at = $random.below($table.len());
            $table[at] = value($random, $table[at] as u64) as $kind;
        }
    };
}

/// Writes into one cell of record or tables, or changes a table's length.
fn spoil(random: &mut Random, t: &mut Tables) {
    match random.below(64) {
        0 => drop(t.states.pop()),
        1 => t.owners.push(0),
        2 => drop(t.lists.pop()),
        3 => t.calls.push(0),
        4 => drop(t.queue.pop()),
        5 => t.row.truncate(random.below(t.row.len() + 1)),
        6..=15 => spoil!(random, t.states, u8),
        16..=23 => spoil!(random, t.owners, u8),
        24..=39 => spoil!(random, t.lists, u16),
        40..=51 => spoil!(random, t.calls, u64),
        52..=59 => spoil!(random, t.queue, u8),
        60..=61 => t.device.clock = value(random, t.device.clock.into()) as u32,
        _ => t.device.running = value(random, t.device.running.into()) as u32,
    }
}

/// A shape with one number changed.
fn other_shape(random: &mut Random, shape: Shape) -> Shape {
    let mut other = shape;
    let number = [&mut other.pool, &mut other.threads, &mut other.levels, &mut other.tops, &mut other.top_size];
    let number = number.into_iter().nth(random.below(5)).expect("a shape has five numbers");
    *number = value(random, *number as u64) as usize;
    other
}

/// How many calls on spoilt tables were compared, and how many of them were refused as no valid state.
#[derive(Clone, Copy, Default)]
pub struct Spoilt {
    pub calls: usize,
    pub refused: usize,
}

impl Spoilt {
    /// Makes the call of a start on these tables.
    fn make(&mut self, shape: Shape, pools: &[Box<dyn Pool>], start: &Start, tables: &Tables) {
        let answer = Together::new(shape, pools, tables).make(start.call)[0];
        self.calls += 1;
        self.refused += usize::from(answer == NOT_VALID);
    }

    /// Makes the call of a start on tables into which something was written, mostly with the right shape.
    fn written(&mut self, random: &mut Random, shape: Shape, pools: &[Box<dyn Pool>], start: &Start) {
        let mut tables = start.tables.clone();
        for _ in 0..1 + random.below(2) {
            spoil(random, &mut tables);
        }
        let shape = if random.once_in(16) { other_shape(random, shape) } else { shape };
        self.make(shape, pools, start, &tables);
    }

    /// Makes the call of a start on tables that break one line of validity alone.
    fn crafted(&mut self, shape: Shape, pools: &[Box<dyn Pool>], start: &Start) {
        for change in CHANGES {
            let mut tables = start.tables.clone();
            if change(shape, &mut tables).is_some() {
                self.make(shape, pools, start, &tables);
            }
        }
    }

    /// Compares the pools on spoilt tables from all starts.
    pub fn compare(&mut self, shape: Shape, pools: &[Box<dyn Pool>], all: &[Starts]) {
        let mut random = Random::new(2);
        for start in all.iter().filter(|starts| starts.kind != Kind::Build).flat_map(|starts| &starts.list) {
            self.crafted(shape, pools, start);
            for _ in 0..TRIED {
                self.written(&mut random, shape, pools, start);
            }
        }
    }
}
