//! The writer: takes a buffer, has the card reader fill it, writes it to the drive and passes the piece on to the verifier.

use crate::card::Piece;
use crate::files::Job;
use crate::station::Halt;
use crate::task::Task;
use saltbalance::Answer;

pub fn work(task: Task<'_>, job: &Job, stop_at_last: bool) -> Result<(), Halt> {
    loop {
        let (piece, is_last) = task.begin(|shared| {
            let piece = shared.to_copy.pop_front()?;
            Some(((piece, shared.to_copy.is_empty()), piece.length))
        })?;
        if is_last && stop_at_last {
            return stop_halfway(task, piece);
        }
        write(task, job, piece)?;
    }
}

/// Writes one piece. Its order goes to the verifier before the buffer goes home.
fn write(task: Task<'_>, job: &Job, piece: Piece) -> Result<(), Halt> {
    let station = task.station;
    let block = task.granted()?;
    station.change(|shared| shared.to_read = Some((piece, block)));
    station.until(|shared| std::mem::take(&mut shared.filled).then_some(()))?;
    station.memory.with(block, piece.length, |buffer| job.write_drive(piece, buffer))?;
    station.change(|shared| {
        shared.progress.copied_bytes += piece.length as u64;
        shared.to_verify.push_back(piece);
    });
    task.bring_home(block)
}

/// The accident: after its ask and the look, the task stops for good. The call is *found*, and nothing is held.
fn stop_halfway(task: Task<'_>, piece: Piece) -> Result<(), Halt> {
    loop {
        if let Answer::Found { level } = task.go_on()?? {
            task.station.change(|shared| shared.writer_stopped = Some((piece, level)));
            return Ok(());
        }
    }
}
