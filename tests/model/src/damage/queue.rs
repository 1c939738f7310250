//! Edits of the queue and of the record.

use super::{broken, either, still_valid, Kind};
use crate::generate::states::some_clock;
use crate::random::Random;
use crate::rules::lent::*;

pub const KINDS: &[Kind] = &[
    broken("a stray queue entry", stray),
    broken("a doubled queue entry", doubled),
    still_valid("queue entries in another order", reordered),
    broken("a wrong queue length", wrong_length),
    broken("a length past the end of a full queue", past_end),
    broken("a nonzero cell behind the queue's end", behind_end),
    broken("a queue entry that is no thread", no_thread),
    broken("a waiting thread missing from the queue", missing),
    broken("a running thread that is no thread", runner_no_thread),
    broken("a running thread that is blocked", runner_blocked),
    still_valid("another thread running, or nobody", another_runner),
    either("the clock moved", clock_moved),
];

/// The threads that are not blocked.
fn ready(lent: &Lent) -> Vec<usize> {
    (0..lent.shape.threads).filter(|&thread| lent.cells(thread).stage != WAITING).collect()
}

fn stray(random: &mut Random, lent: &mut Lent) -> bool {
    let Some(thread) = random.pick_any(&ready(lent)) else { return false };
    let mut queue = lent.queue();
    if !queue.is_empty() && random.percent(50) {
        let position = random.below(queue.len());
        queue[position] = thread;
    } else {
        queue.push(thread);
    }
    lent.set_queue(&queue);
    true
}

fn doubled(random: &mut Random, lent: &mut Lent) -> bool {
    let mut queue = lent.queue();
    if queue.len() > 1 && random.percent(50) {
        let from = random.below(queue.len());
        let to = (from + random.between(1, queue.len() - 1)) % queue.len();
        queue[to] = queue[from];
    } else if !queue.is_empty() && queue.len() < lent.shape.threads {
        queue.push(random.pick(&queue));
    } else {
        return false;
    }
    lent.set_queue(&queue);
    true
}

fn reordered(random: &mut Random, lent: &mut Lent) -> bool {
    let mut queue = lent.queue();
    random.shuffle(&mut queue);
    lent.set_queue(&queue);
    queue.len() > 1
}

fn wrong_length(random: &mut Random, lent: &mut Lent) -> bool {
    let (length, threads) = (lent.tables.queue[0], lent.shape.threads as u8);
    let any = random.number() as u8;
    let wrong = [length.wrapping_sub(1), length + 1, length + 1, 0, threads, threads + 1, 255, any];
    lent.tables.queue[0] = random.pick(&wrong);
    lent.tables.queue[0] != length
}

fn past_end(random: &mut Random, lent: &mut Lent) -> bool {
    let threads = lent.shape.threads;
    if lent.queue_length() < threads {
        return false;
    }
    lent.tables.queue[0] = random.pick(&[threads + 1, threads + 2, 128 + threads, 255]) as u8;
    true
}

fn behind_end(random: &mut Random, lent: &mut Lent) -> bool {
    let (length, threads) = (lent.queue_length(), lent.shape.threads);
    if length == threads {
        return false;
    }
    let place = random.between(length, threads - 1);
    lent.tables.queue[1 + place] = random.pick(&[1, threads as u8, 128, 255]);
    true
}

fn no_thread(random: &mut Random, lent: &mut Lent) -> bool {
    let (mut queue, threads) = (lent.queue(), lent.shape.threads);
    let beyond = random.pick(&[threads, threads, threads + 1, 8, 128, 255]);
    if queue.len() < threads && random.percent(60) {
        queue.insert(random.below(queue.len() + 1), beyond);
    } else if !queue.is_empty() {
        let position = random.below(queue.len());
        queue[position] = beyond;
    } else {
        return false;
    }
    lent.set_queue(&queue);
    true
}

fn missing(random: &mut Random, lent: &mut Lent) -> bool {
    let mut queue = lent.queue();
    if queue.is_empty() {
        return false;
    }
    queue.remove(random.below(queue.len()));
    lent.set_queue(&queue);
    true
}

fn runner_no_thread(random: &mut Random, lent: &mut Lent) -> bool {
    let (threads, running) = (lent.shape.threads as u32, lent.record.running);
    let beyond = [threads + 1, threads + 2, 9, 256, 256 + running, 65_536 + running, u32::MAX];
    lent.record.running = random.pick(&beyond);
    true
}

fn runner_blocked(random: &mut Random, lent: &mut Lent) -> bool {
    let blocked = random.pick_any(&lent.queue());
    if let Some(thread) = blocked {
        lent.record.running = thread as u32 + 1;
    }
    blocked.is_some()
}

fn another_runner(random: &mut Random, lent: &mut Lent) -> bool {
    let runner = if random.percent(25) { None } else { random.pick_any(&ready(lent)) };
    lent.record.running = runner.map_or(0, |thread| thread as u32 + 1);
    true
}

fn clock_moved(random: &mut Random, lent: &mut Lent) -> bool {
    let clock = lent.record.clock;
    let near = [clock.wrapping_add(1), clock.wrapping_sub(1), clock.wrapping_add(60_000)];
    lent.record.clock = if random.percent(60) { random.pick(&near) } else { some_clock(random) };
    true
}
