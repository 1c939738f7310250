//! A task: a thread of the pool. It makes one step at a time: it takes the lock, switches to itself, goes on once and leaves the lock.
//! Its call stays open between the steps, and other tasks step in between.

use crate::station::{Halt, Shared, Station};
use saltbalance::{Answer, Id, Millis, Refusal};
use std::thread;

/// The pool's number for each task.
pub const READER: usize = 0;
pub const WRITER: usize = 1;
pub const VERIFIER: usize = 2;
pub const LIGHT: usize = 3;

/// The name of each task, by that number.
pub const NAMES: [&str; 4] = ["card reader", "writer", "verifier", "light"];

#[derive(Clone, Copy)]
pub struct Task<'a> {
    pub station: &'a Station,
    pub thread: usize,
}

impl Task<'_> {
    /// Waits for an order, takes it and asks for a buffer of its size, all in one lock.
    pub fn begin<T>(&self, mut order: impl FnMut(&mut Shared) -> Option<(T, usize)>) -> Result<T, Halt> {
        let thread = self.thread;
        let begun = self.station.until(|shared| {
            let (order, size) = order(shared)?;
            let opened = shared.pool.switch(thread).and_then(|_| shared.pool.ask(thread, size, Millis::FOREVER));
            Some(opened.map(|_| order))
        })?;
        Ok(begun?)
    }

    /// Asks for a buffer with no order.
    pub fn ask(&self, size: usize, wait: Millis) -> Result<(), Halt> {
        let shared = &mut *self.station.lock();
        shared.pool.switch(self.thread)?;
        shared.pool.ask(self.thread, size, wait)?;
        Ok(())
    }

    /// One step of the open call. A task whose call waits cannot be switched to: it comes when another one's buffer has settled.
    pub fn go_on(&self) -> Result<Result<Answer, Refusal>, Halt> {
        thread::yield_now();
        let thread = self.thread;
        let step = self.station.until(|shared| {
            if shared.pool.switch(thread) == Err(Refusal::IsBlocked) {
                return None;
            }
            let step = shared.pool.go_on(thread);
            shared.count(step);
            Some(step)
        })?;
        if let Ok(Answer::Settled { .. }) = step {
            self.station.wake();
        }
        Ok(step)
    }

    /// Goes on until the buffer is granted.
    pub fn granted(&self) -> Result<Id, Halt> {
        loop {
            if let Answer::Granted { id } = self.go_on()?? {
                return Ok(id);
            }
        }
    }

    /// Gives a buffer back, and goes on until it has settled.
    pub fn bring_home(&self, block: Id) -> Result<(), Halt> {
        {
            let shared = &mut *self.station.lock();
            shared.pool.switch(self.thread)?;
            shared.pool.give_back(self.thread, block)?;
        }
        while !matches!(self.go_on()??, Answer::Settled { .. }) {}
        Ok(())
    }
}
