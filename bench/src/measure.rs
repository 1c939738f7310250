//! Nanoseconds for a call.

use crate::call::{Nothing, Pool};
use crate::patch::Patch;
use crate::shape::Shape;
use crate::starts::Start;
use crate::tables::Tables;
use std::hint::black_box;
use std::time::Instant;

/// The copies of the tables on which one sample is taken fill at most this much of the processor's first cache.
pub const SAMPLE_BYTES: usize = 16 * 1024;
pub const MOST_COPIES: usize = 64;

/// How many places on the stack are tried in turn.
const STEPS: usize = 17;

/// One sample: the same call on each copy of the tables, timed as a whole, in nanoseconds. Then the call is undone.
fn sample(pool: &dyn Pool, shape: Shape, start: &Start, copies: &mut [Tables], patch: &Patch) -> f64 {
    let call = black_box(start.call);
    let begun = Instant::now();
    for copy in copies.iter_mut() {
        black_box(pool.make(call, shape, copy));
    }
    let time = begun.elapsed().as_nanos() as f64;
    copies.iter_mut().for_each(|copy| patch.undo(copy));
    time
}

/// What undoes the call of a start.
fn undoes(pool: &dyn Pool, shape: Shape, start: &Start) -> Patch {
    let mut after = start.tables.clone();
    pool.make(start.call, shape, &mut after);
    Patch::new(&start.tables, &after)
}

/// Does some work so many steps further down the stack. Where the stack lies beside the tables moves a time by as much as a half; over all
/// steps it lies everywhere within a page.
fn down(steps: usize, work: &mut dyn FnMut() -> f64) -> f64 {
    if steps == 0 {
        return work();
    }
    let room = black_box([0u8; 192]);
    let result = down(steps - 1, work);
    black_box(room);
    result
}

/// The middle one of some numbers.
pub fn median(mut numbers: Vec<f64>) -> f64 {
    numbers.sort_by(f64::total_cmp);
    numbers[numbers.len() / 2]
}

/// The time of a call from one start by each pool: the median of the rounds, less that of a call that does nothing. In a round each pool
/// has its turn, beginning with another one each time.
pub fn from_start(shape: Shape, pools: &[Box<dyn Pool>], start: &Start, rounds: usize) -> Vec<f64> {
    let copies = (SAMPLE_BYTES / start.tables.bytes()).clamp(1, MOST_COPIES);
    let mut tables = vec![start.tables.clone(); copies];
    let turns: Vec<&dyn Pool> = pools.iter().map(|pool| &**pool).chain([&Nothing as &dyn Pool]).collect();
    let patch = undoes(&*pools[0], shape, start);
    let mut samples = vec![vec![]; turns.len()];
    for round in 0..rounds {
        for turn in 0..turns.len() {
            let n = (round + turn) % turns.len();
            samples[n].push(down(round % STEPS, &mut || sample(turns[n], shape, start, &mut tables, &patch)));
        }
    }
    let mut medians: Vec<f64> = samples.into_iter().map(median).collect();
    let nothing = medians.pop().expect("the last turn does nothing");
    medians.into_iter().map(|whole| (whole - nothing) / copies as f64).collect()
}
