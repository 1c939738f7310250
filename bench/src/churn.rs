//! A history of calls by all threads: the pool is filled with small blocks, half of them are given back here and there, and then blocks
//! of all sizes come and go. So the tree is well divided, the lists are long and in no order, and at most times some calls are open.

use crate::call::{Call, Reply};
use crate::numbers::answer::{GRANTED, OPENED};
use crate::numbers::stage::{CLOSED, WAITING};
use crate::numbers::wait::NEVER;
use crate::random::Random;
use crate::shape::Shape;
use crate::tables::{Tables, CELLS};
use crate::wrong;

#[derive(Clone, Copy, Debug, PartialEq, Eq)]
pub enum Phase {
    Fill,
    Thin,
    Mix,
}

pub struct Churn {
    shape: Shape,
    random: Random,
    phase: Phase,
    /// The ids that each thread holds, and the bytes of all of them.
    held: Vec<Vec<usize>>,
    held_bytes: usize,
}

impl Churn {
    /// A history that fills the pool first.
    pub fn new(shape: Shape) -> Churn {
        Churn { shape, random: Random::new(0x5a17_ba1a_9ce5), phase: Phase::Fill, held: vec![Vec::new(); shape.threads], held_bytes: 0 }
    }

    /// A history that begins with the mixed phase.
    pub fn mixed(shape: Shape) -> Churn {
        Churn { phase: Phase::Mix, ..Churn::new(shape) }
    }

    pub fn phase(&self) -> Phase {
        self.phase
    }

    /// The next call on tables that stand so.
    pub fn next(&mut self, tables: &Tables) -> Call {
        if self.phase == Phase::Mix {
            if let Some(call) = self.aside(tables) {
                return call;
            }
        }
        match (tables.device.running as usize).checked_sub(1) {
            Some(thread) if !self.random.once_in(4) => self.work(thread, tables),
            _ => self.switch(tables),
        }
    }

    /// Takes note of what a call replied.
    pub fn learn(&mut self, call: Call, reply: Reply) {
        match (call, reply) {
            (Call::GoOn { thread }, [GRANTED, id, _]) => {
                self.held[thread].push(id);
                self.held_bytes += self.size_of(id);
            }
            (Call::GiveBack { thread, id }, [OPENED, ..]) => {
                self.held[thread].retain(|&other| other != id);
                self.held_bytes -= self.size_of(id);
            }
            _ => {}
        }
        let bytes = self.shape.bytes();
        match self.phase {
            Phase::Fill if self.held_bytes * 8 >= bytes * 7 => self.phase = Phase::Thin,
            Phase::Thin if self.held_bytes * 16 <= bytes * 7 => self.phase = Phase::Mix,
            _ => {}
        }
    }

    /// Now and then a tick, a question or a call that is wrong.
    fn aside(&mut self, tables: &Tables) -> Option<Call> {
        let bytes = self.shape.bytes();
        match self.random.below(128) {
            0..=3 => Some(Call::Tick),
            4..=5 => Some(Call::Whole),
            6..=7 => Some(Call::Cover { offset: self.random.below(bytes + bytes / 8) }),
            8 => Some(Call::Map),
            9..=11 => Some(self.wrong(tables)),
            _ => None,
        }
    }

    /// A call with numbers on either side of the lines, mostly by the running thread.
    fn wrong(&mut self, tables: &Tables) -> Call {
        let running = (tables.device.running as usize).saturating_sub(1);
        let thread = if self.random.once_in(4) { self.random.below(self.shape.threads + 1) } else { running };
        let holds_nothing = self.held.get(thread).is_some_and(Vec::is_empty);
        let may_wait = holds_nothing && self.may_wait(tables);
        wrong::call(&mut self.random, self.shape, thread, may_wait)
    }

    /// Another thread that is not blocked runs; where all are, the clock moves on.
    fn switch(&mut self, tables: &Tables) -> Call {
        let ready: Vec<usize> = (0..self.shape.threads).filter(|&thread| tables.stage(thread) != WAITING).collect();
        match ready.len() {
            0 => Call::Tick,
            count => Call::Switch { thread: ready[self.random.below(count)] },
        }
    }

    /// The running thread's next call: its open call goes on, or it gives or asks.
    fn work(&mut self, thread: usize, tables: &Tables) -> Call {
        if tables.stage(thread) != CLOSED {
            return Call::GoOn { thread };
        }
        if !self.held[thread].is_empty() && self.gives(thread) {
            return Call::GiveBack { thread, id: self.home(thread) };
        }
        match self.phase {
            Phase::Thin => self.switch(tables),
            _ => Call::Ask { thread, size: self.size(), wait: self.wait(thread, tables) },
        }
    }

    /// The block that a thread gives back: any, but in the mixed phase every second time the largest, so that large blocks go home soon.
    fn home(&mut self, thread: usize) -> usize {
        let held = &self.held[thread];
        let any = held[self.random.below(held.len())];
        match self.phase {
            Phase::Mix if self.random.once_in(2) => held.iter().copied().min_by_key(|id| id >> 8 & 15).unwrap_or(any),
            _ => any,
        }
    }

    /// Whether a thread gives rather than asks: the last one always, the others so that about half of the bytes are held.
    fn gives(&mut self, thread: usize) -> bool {
        match self.phase {
            _ if thread == self.shape.threads - 1 => true,
            Phase::Fill => false,
            Phase::Thin => true,
            Phase::Mix => (self.held_bytes * 2 > self.shape.bytes()) != self.random.once_in(4),
        }
    }

    /// A size to ask for: the smallest block's, or in the mixed phase every second time another level's, seldom the top one's.
    fn size(&mut self) -> usize {
        let deepest = self.shape.levels - 1;
        if self.phase != Phase::Mix || self.random.once_in(2) {
            return self.shape.size(deepest);
        }
        let level = if deepest == 0 || self.random.once_in(16) { 0 } else { 1 + self.random.below(deepest) };
        let size = self.shape.size(level);
        size - self.random.below(size / 4)
    }

    /// How long a thread waits: the last one, which holds nothing when it asks, for ever; of the others half not at all, half for a time.
    fn wait(&mut self, thread: usize, tables: &Tables) -> i32 {
        if thread == self.shape.threads - 1 {
            -1
        } else if thread % 2 == 1 && self.may_wait(tables) {
            1 + self.random.below(300) as i32
        } else {
            0
        }
    }

    /// Whether one more thread may wait: never more than half of them, so that the others go on.
    fn may_wait(&self, tables: &Tables) -> bool {
        let waiting = tables.calls.chunks(CELLS).filter(|cells| cells[2] != NEVER).count();
        2 * (waiting + 1) <= self.shape.threads
    }

    /// The bytes of the block with this id.
    fn size_of(&self, id: usize) -> usize {
        self.shape.size(id >> 8 & 15)
    }
}
