//! A guard for a block that a thread holds.

use crate::answer::Answer;
use crate::id::Id;
use crate::refusal::Refusal;
use core::mem;

/// A block that a thread holds, to be given back or kept by choice.
///
/// A pool is lent to each call, so the guard has no hold on it and gives nothing back by itself. It is used up by
/// [`give_back`](Held::give_back) or by [`keep`](Held::keep). Dropped without either, its block stays held:
///
/// - in a build with debug assertions the drop panics and names thread and block;
/// - in any other build the drop does nothing, and the pool shows it: it is not whole, and once no call is open
///   [`View::keeper`](crate::View::keeper) names a thread and a block that it holds.
///
/// ```
/// use saltbalance::{Answer, Device, Held, Millis, Refusal, Shape, Tables};
///
/// let shape = Shape { pool: 1, threads: 1, levels: 1, tops: 1, top_size: 64 };
/// let mut device = Device::default();
/// let mut tables =
///     Tables { states: &mut [0], owners: &mut [0], lists: &mut [0; 2], calls: &mut [0; 6], queue: &mut [0; 2] };
/// tables.build(&mut device, shape)?;
/// tables.switch(&mut device, shape, 0)?;
/// tables.ask(device, shape, 0, 64, Millis::NONE)?;
/// let held = loop {
///     if let Answer::Granted { id } = tables.go_on(&mut device, shape, 0)? {
///         break Held::new(0, id);
///     }
/// };
/// assert_eq!(held.id().range(&shape), 0..64);
///
/// // While another call of the thread is open it is refused, and the guard comes back.
/// tables.ask(device, shape, 0, 64, Millis::NONE)?;
/// let (refusal, held) = held.give_back(|thread, id| tables.give_back(device, shape, thread, id)).unwrap_err();
/// assert_eq!(refusal, Refusal::CallOpen);
///
/// assert_eq!(tables.go_on(&mut device, shape, 0), Err(Refusal::NoRoom));
/// assert_eq!(held.give_back(|thread, id| tables.give_back(device, shape, thread, id)), Ok(Answer::Opened));
/// # Ok::<(), Refusal>(())
/// ```
#[must_use = "its block stays held until it is given back: call `give_back`, or `keep` to keep it by choice"]
#[derive(Debug, PartialEq, Eq)]
pub struct Held {
    thread: usize,
    id: Id,
}

impl Held {
    /// The guard for a block that was granted to a thread. The pool is not asked whether it was.
    pub fn new(thread: usize, id: Id) -> Held {
        Held { thread, id }
    }

    /// The thread that holds the block.
    #[must_use]
    pub fn thread(&self) -> usize {
        self.thread
    }

    /// The block.
    #[must_use]
    pub fn id(&self) -> Id {
        self.id
    }

    /// Gives the block back by a call of the caller's pool. Where that is refused the block is still held, and the guard comes back.
    pub fn give_back(self, call: impl FnOnce(usize, Id) -> Result<Answer, Refusal>) -> Result<Answer, (Refusal, Held)> {
        match call(self.thread, self.id) {
            Ok(answer) => {
                let _ = self.keep();
                Ok(answer)
            }
            Err(refusal) => Err((refusal, self)),
        }
    }

    /// Keeps the block held without a guard. To give it back is now up to whoever has the id.
    #[must_use = "without its id nobody can give the block back"]
    pub fn keep(self) -> Id {
        let id = self.id;
        mem::forget(self);
        id
    }
}

impl Drop for Held {
    fn drop(&mut self) {
        if cfg!(debug_assertions) {
            panic!("thread {} still holds block {}: it was neither given back nor kept", self.thread, self.id);
        }
    }
}
