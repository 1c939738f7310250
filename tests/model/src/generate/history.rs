//! Histories: the next call of several threads that take buffers, give them back, wait and tick.

use super::arguments::{self, held};
use crate::entry::{Entry, KINDS};
use crate::random::Random;
use crate::rules::lent::{Lent, CLOSED, WAITING};

/// How the threads behave for a while: each number is times in a hundred.
#[derive(Clone, Debug)]
pub struct Manners {
    /// Another thread is switched to before the next step.
    switch: usize,
    /// A tick comes before the next step.
    tick: usize,
    /// A question is asked.
    question: usize,
    /// A call with any arguments at all is made.
    wild: usize,
    /// A thread that holds blocks gives one back rather than ask for more.
    give: usize,
    /// A request is for a deep (small) block.
    small: usize,
    /// A request may wait, and of those that may, has a deadline.
    wait: usize,
    timed: usize,
    /// A thread with a call open goes on rather than rest: at 100 it always does.
    eager: usize,
}

impl Manners {
    /// Manners for a while.
    pub fn some(random: &mut Random) -> Manners {
        Manners {
            switch: random.pick(&[0, 5, 30, 60]),
            tick: random.pick(&[0, 2, 10, 30]),
            question: random.pick(&[0, 2, 10]),
            wild: random.pick(&[0, 3, 10, 40]),
            give: random.pick(&[5, 30, 50, 90]),
            small: random.pick(&[10, 50, 90, 100]),
            wait: random.pick(&[0, 30, 70, 100]),
            timed: random.pick(&[0, 50, 100]),
            eager: random.pick(&[80, 100, 100]),
        }
    }
}

/// The next call of a history that stands at these valid tables.
pub fn next(random: &mut Random, lent: &Lent, manners: &Manners) -> Entry {
    if random.percent(manners.wild) {
        let kind = random.between(1, KINDS.len() - 1);
        return arguments::call(random, lent, kind);
    }
    if random.percent(manners.question) {
        let kind = random.between(6, 8);
        return arguments::call(random, lent, kind);
    }
    let stage = |thread: usize| lent.cells(thread).stage;
    let ready: Vec<usize> = (0..lent.shape.threads).filter(|&thread| stage(thread) != WAITING).collect();
    if ready.is_empty() {
        return if random.once_in(30) { Entry::Build } else { Entry::Tick };
    }
    if random.percent(manners.tick) {
        return Entry::Tick;
    }
    if lent.record.running == 0 || random.percent(manners.switch) {
        return Entry::Switch { thread: random.pick(&ready) };
    }
    let thread = lent.record.running as usize - 1;
    if stage(thread) == CLOSED {
        open(random, lent, manners, thread)
    } else if random.percent(manners.eager) {
        Entry::GoOn { thread }
    } else {
        Entry::Switch { thread: random.below(lent.shape.threads) }
    }
}

/// The running thread opens a call: it gives back a block of its own, or asks for one. A thread that
/// holds blocks does not wait for long, so that the others don't wait for it in vain.
fn open(random: &mut Random, lent: &Lent, manners: &Manners, thread: usize) -> Entry {
    let own = held(random, lent, |owner| owner as usize == thread + 1);
    if let (Some(id), true) = (own, random.percent(manners.give)) {
        return Entry::GiveBack { thread, id };
    }
    let shape = &lent.shape;
    let level = if random.percent(manners.small) { shape.deepest() } else { random.below(shape.levels) };
    let size = shape.size(level) - random.pick(&[0, 0, 1, shape.size(level) / 2]);
    let wait = if !random.percent(manners.wait) {
        0
    } else if own.is_some() {
        random.pick(&[1, 10, 11, 20, 35, 50])
    } else if !random.percent(manners.timed) {
        -1
    } else {
        random.pick(&[1, 10, 11, 20, 35, 100, 1000, 600_000])
    };
    Entry::Ask { thread, size, wait }
}
