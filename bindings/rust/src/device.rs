//! The record of clock and running thread, and the time a request may wait.

/// The record that the caller lends to each call: the clock, and who runs.
///
/// ```
/// use saltbalance::Device;
///
/// let device = Device { clock: 0, running: 2 };
/// assert_eq!(device.thread(), Some(1));
/// assert_eq!(Device::default().thread(), None);
/// ```
#[repr(C)]
#[derive(Clone, Copy, Debug, Default, PartialEq, Eq, Hash)]
pub struct Device {
    /// The clock, in ticks of 10 milliseconds.
    pub clock: u32,
    /// Who runs: 0 for nobody, t + 1 for thread t.
    pub running: u32,
}

impl Device {
    /// The thread that runs, if there is one.
    #[must_use]
    pub fn thread(&self) -> Option<usize> {
        self.running.checked_sub(1).map(|thread| thread as usize)
    }
}

/// How long a request may wait, in milliseconds: −1 forever, 0 not at all, or 1 to 600,000. Other numbers are refused.
///
/// A tick is 10 milliseconds: a wait lasts its milliseconds / 10, rounded up, in ticks.
///
/// ```
/// use saltbalance::Millis;
///
/// assert_eq!([Millis::FOREVER, Millis::NONE, Millis::LONGEST], [Millis(-1), Millis(0), Millis(600_000)]);
/// ```
#[derive(Clone, Copy, Debug, PartialEq, Eq, PartialOrd, Ord, Hash)]
pub struct Millis(pub i32);

impl Millis {
    /// Waits until there is room.
    pub const FOREVER: Millis = Millis(-1);
    /// Does not wait: where there is no room, the call ends at once.
    pub const NONE: Millis = Millis(0);
    /// The longest time that may be named.
    pub const LONGEST: Millis = Millis(600_000);
}
