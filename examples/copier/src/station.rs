//! What the tasks share: the pool, the orders, and what is done so far, behind one lock.
//!
//! The light trusts this: work that is not done stands on a list of orders, or a task holds a buffer for it, or has a call open for it.
//! So a task takes an order and asks for its buffer in one lock, and passes an order on before it gives its buffer back.

use crate::card::Piece;
use crate::memory::Memory;
use saltbalance::{Answer, Id, Pool, Refusal, Shape};
use std::collections::VecDeque;
use std::sync::{Condvar, Mutex, MutexGuard};

/// The pool: one top block of 65,536 bytes and five levels, so that four pieces fill it and tasks must wait for each other.
pub const SHAPE: Shape = Shape { pool: 1, threads: 4, levels: 5, tops: 1, top_size: 65_536 };

/// Why a task ends before its work is done.
pub enum Halt {
    /// The run is over.
    Over,
    /// Something went wrong, in words.
    Problem(String),
}

impl From<Refusal> for Halt {
    fn from(refusal: Refusal) -> Halt {
        Halt::Problem(format!("the pool refused a step: {refusal}"))
    }
}

impl From<String> for Halt {
    fn from(problem: String) -> Halt {
        Halt::Problem(problem)
    }
}

/// What is done so far.
#[derive(Clone, Copy, Default, PartialEq, Eq)]
pub struct Progress {
    pub copied_bytes: u64,
    pub verified_bytes: u64,
    pub verified_files: usize,
    pub buffers_granted: usize,
    pub waits: usize,
}

/// What stands behind the lock.
pub struct Shared {
    pub pool: Pool,
    /// Orders for the writer.
    pub to_copy: VecDeque<Piece>,
    /// An order for the card reader: the piece, and the writer's block that it goes to.
    pub to_read: Option<(Piece, Id)>,
    /// The card reader has filled the writer's block.
    pub filled: bool,
    /// Orders for the verifier.
    pub to_verify: VecDeque<Piece>,
    pub progress: Progress,
    /// The piece for which the writer was taking a buffer when it stopped, and the level where the pool found room.
    pub writer_stopped: Option<(Piece, usize)>,
    over: bool,
    problem: Option<String>,
}

pub struct Station {
    pub memory: Memory,
    shared: Mutex<Shared>,
    changed: Condvar,
}

impl Station {
    pub fn new(to_copy: VecDeque<Piece>) -> Result<Station, Refusal> {
        let shared = Shared {
            pool: Pool::build(SHAPE)?,
            to_copy,
            to_read: None,
            filled: false,
            to_verify: VecDeque::new(),
            progress: Progress::default(),
            writer_stopped: None,
            over: false,
            problem: None,
        };
        Ok(Station { memory: Memory::new(SHAPE), shared: Mutex::new(shared), changed: Condvar::new() })
    }

    pub fn lock(&self) -> MutexGuard<'_, Shared> {
        self.shared.lock().expect("a task that panics ends the program")
    }

    /// Changes what is shared, and wakes the tasks that wait for a change.
    pub fn change<T>(&self, work: impl FnOnce(&mut Shared) -> T) -> T {
        let result = work(&mut self.lock());
        self.wake();
        result
    }

    /// Looks at what is shared, unless the run is over.
    pub fn look<T>(&self, view: impl FnOnce(&Shared) -> T) -> Result<T, Halt> {
        let shared = self.lock();
        if shared.over {
            return Err(Halt::Over);
        }
        Ok(view(&shared))
    }

    /// Tries again at each change until there is a result, or the run is over.
    pub fn until<T>(&self, mut trial: impl FnMut(&mut Shared) -> Option<T>) -> Result<T, Halt> {
        let mut shared = self.lock();
        loop {
            if shared.over {
                return Err(Halt::Over);
            }
            if let Some(result) = trial(&mut shared) {
                return Ok(result);
            }
            shared = self.changed.wait(shared).expect("a task that panics ends the program");
        }
    }

    /// Wakes the tasks that wait for a change.
    pub fn wake(&self) {
        self.changed.notify_all();
    }

    /// Ends the run: every task ends at its next step or wait.
    pub fn end(&self) {
        self.change(|shared| shared.over = true);
    }

    /// Notes how a task ended. A problem ends the run; the first one is kept.
    pub fn note(&self, ended: Result<(), Halt>) {
        if let Err(Halt::Problem(problem)) = ended {
            self.change(|shared| {
                shared.problem.get_or_insert(problem);
                shared.over = true;
            });
        }
    }

    pub fn is_over(&self) -> bool {
        self.lock().over
    }

    /// What went wrong, if anything.
    pub fn problem(&self) -> Option<String> {
        self.lock().problem.clone()
    }
}

impl Shared {
    /// How many orders stand on the lists.
    pub fn orders(&self) -> usize {
        self.to_copy.len() + self.to_verify.len() + usize::from(self.to_read.is_some())
    }

    /// Counts what a step did.
    pub fn count(&mut self, step: Result<Answer, Refusal>) {
        match step {
            Ok(Answer::Granted { .. }) => self.progress.buffers_granted += 1,
            Ok(Answer::Waiting) => self.progress.waits += 1,
            _ => {}
        }
    }
}
