//! The card reader: reads a piece of the card into a buffer of its own, and copies it to the writer's.

use crate::files::Job;
use crate::station::Halt;
use crate::task::Task;

pub fn work(task: Task<'_>, job: &Job) -> Result<(), Halt> {
    loop {
        let (piece, writers) = task.begin(|shared| {
            let order = shared.to_read.take()?;
            Some((order, order.0.length))
        })?;
        let block = task.granted()?;
        task.station.memory.with(block, piece.length, |buffer| job.read_card(piece, buffer))?;
        task.station.memory.copy(block, writers, piece.length);
        task.station.change(|shared| shared.filled = true);
        task.bring_home(block)?;
    }
}
