//! A wish to stop, by SIGINT or SIGTERM. The first signal is noted, and the run ends in order; a second one of its kind ends the program at
//! once. All unsafe code of the program is here.

use std::sync::atomic::{AtomicI32, Ordering};

const SIGINT: i32 = 2;
const SIGTERM: i32 = 15;

/// What the system does with a signal by itself: it ends the program.
const BY_ITSELF: usize = 0;

/// The signal that came; 0 for none.
static CAME: AtomicI32 = AtomicI32::new(0);

extern "C" {
    /// The C library's `signal`: from now on this function is called when the signal comes.
    fn signal(number: i32, function: usize) -> usize;
}

/// Called when a signal comes.
extern "C" fn note(number: i32) {
    CAME.store(number, Ordering::Relaxed);
    // SAFETY: `signal` is one of the functions that may be called here, and `BY_ITSELF` is a value that it takes.
    unsafe { signal(number, BY_ITSELF) };
}

/// From now on signals are noted.
pub fn watch() {
    for number in [SIGINT, SIGTERM] {
        // SAFETY: `note` has the type that `signal` wants, and does only what may be done when a signal comes: it stores to an atomic and
        // calls `signal`.
        unsafe { signal(number, note as extern "C" fn(i32) as usize) };
    }
}

/// The signal that came, if one did.
pub fn came() -> Option<i32> {
    Some(CAME.load(Ordering::Relaxed)).filter(|&number| number != 0)
}

/// An error once a signal has come.
pub fn check() -> Result<(), String> {
    came().map_or(Ok(()), |number| Err(format!("stopped by signal {number}")))
}
