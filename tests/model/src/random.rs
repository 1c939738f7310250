//! A small generator of random numbers (splitmix64): the same seed and run give the same numbers.

/// The generator's state.
#[derive(Clone, Debug)]
pub struct Random {
    state: u64,
}

/// The step between two states: 2^64 divided by the golden ratio, made odd.
const STEP: u64 = 0x9E37_79B9_7F4A_7C15;

/// Spreads a number's bits over all 64.
fn mixed(number: u64) -> u64 {
    let number = (number ^ (number >> 30)).wrapping_mul(0xBF58_476D_1CE4_E5B9);
    let number = (number ^ (number >> 27)).wrapping_mul(0x94D0_49BB_1331_11EB);
    number ^ (number >> 31)
}

impl Random {
    /// The generator of one run; each run of a seed has its own, so that it can be run alone.
    pub fn of_run(seed: u64, run: u64) -> Random {
        Random { state: mixed(mixed(seed).wrapping_add(run.wrapping_mul(STEP))) }
    }

    /// Any number of 64 bits.
    pub fn number(&mut self) -> u64 {
        self.state = self.state.wrapping_add(STEP);
        mixed(self.state)
    }

    /// A number below the bound; the bound is positive.
    pub fn below(&mut self, bound: usize) -> usize {
        (self.number() % bound as u64) as usize
    }

    /// A number from the least to the most, both included.
    pub fn between(&mut self, least: usize, most: usize) -> usize {
        least + self.below(most - least + 1)
    }

    /// Yes this many times in a hundred.
    pub fn percent(&mut self, times: usize) -> bool {
        self.below(100) < times
    }

    /// Yes once in this many times.
    pub fn once_in(&mut self, times: usize) -> bool {
        self.below(times) == 0
    }

    /// One of the things in a row that is not empty.
    pub fn pick<T: Copy>(&mut self, row: &[T]) -> T {
        row[self.below(row.len())]
    }

    /// One of the things in a row, if there is any.
    pub fn pick_any<T: Copy>(&mut self, row: &[T]) -> Option<T> {
        (!row.is_empty()).then(|| self.pick(row))
    }

    /// The things of a row in another order.
    pub fn shuffle<T>(&mut self, row: &mut [T]) {
        for last in (1..row.len()).rev() {
            row.swap(last, self.below(last + 1));
        }
    }
}
