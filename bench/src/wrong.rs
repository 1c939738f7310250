//! Calls with numbers on either side of the lines: most are refused.

use crate::call::Call;
use crate::random::Random;
use crate::shape::Shape;

/// Waits that are refused, then waits that are not; the last two are long.
const WAITS: [i32; 8] = [-2, 600_001, i32::MIN, i32::MAX, 0, 1, -1, 600_000];

/// A call by this thread, with a long wait only where it may wait.
pub fn call(random: &mut Random, shape: Shape, thread: usize, may_wait: bool) -> Call {
    match random.below(4) {
        0 => {
            let wait = WAITS[random.below(if may_wait { 8 } else { 6 })];
            Call::Ask { thread, size: random.below(shape.top_size * 3 / 2), wait }
        }
        1 => Call::GoOn { thread },
        2 => Call::GiveBack { thread, id: id(random, shape) },
        _ => Call::Switch { thread },
    }
}

/// An id of a block that there may be or not.
fn id(random: &mut Random, shape: Shape) -> usize {
    let level = random.below(shape.levels + 1);
    let block = random.below((shape.tops << (2 * level)) + 1);
    shape.pool + usize::from(random.once_in(16)) + 256 * level + 4096 * block
}
