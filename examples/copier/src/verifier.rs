//! The verifier: reads a piece of the card and the same piece of the drive into two buffers, and compares them.

use crate::card::Piece;
use crate::files::Job;
use crate::station::Halt;
use crate::task::Task;
use saltbalance::Millis;

pub fn work(task: Task<'_>, job: &Job) -> Result<(), Halt> {
    loop {
        let piece = task.begin(|shared| {
            let piece = shared.to_verify.pop_front()?;
            Some((piece, piece.length))
        })?;
        verify(task, job, piece)?;
    }
}

/// Verifies one piece: its first buffer is asked for, the second one follows.
fn verify(task: Task<'_>, job: &Job, piece: Piece) -> Result<(), Halt> {
    let memory = &task.station.memory;
    let card = task.granted()?;
    memory.with(card, piece.length, |buffer| job.read_card(piece, buffer))?;
    task.ask(piece.length, Millis::FOREVER)?;
    let drive = task.granted()?;
    memory.with(drive, piece.length, |buffer| job.read_drive(piece, buffer))?;
    if !memory.same(card, drive, piece.length) {
        return Err(Halt::Problem(format!("{} differs on the drive from byte {} on", job.path(piece).display(), piece.offset)));
    }
    task.station.change(|shared| {
        shared.progress.verified_bytes += piece.length as u64;
        shared.progress.verified_files += usize::from(piece.last);
    });
    task.bring_home(drive)?;
    task.bring_home(card)
}
