//! The clock: a tick every 10 milliseconds, so that waits with a time end. It also sees to it that a wish to stop ends the run.

use crate::station::{Halt, Station};
use crate::stop;
use std::thread;
use std::time::Duration;

/// Ticks until the run is over.
pub fn work(station: &Station) -> Result<(), Halt> {
    while !station.is_over() {
        stop::check()?;
        thread::sleep(Duration::from_millis(10));
        station.change(|shared| shared.pool.tick())?;
    }
    Ok(())
}
