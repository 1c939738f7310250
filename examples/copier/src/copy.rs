//! The tasks at work together: each in a thread of its own, all on one station.

use crate::files::Job;
use crate::light::{self, Shown};
use crate::station::{Halt, Station};
use crate::task::{Task, LIGHT, READER, VERIFIER, WRITER};
use crate::{clock, reader, verifier, words, writer};
use std::thread;

/// Copies and verifies. Answers what the light showed at the end, or what went wrong.
pub fn copy(job: &Job, stop_writer: bool) -> Result<Shown, String> {
    let pieces = job.card.pieces().collect();
    let station = &Station::new(pieces).map_err(|refusal| format!("the pool was not built: {refusal}"))?;
    let task = |thread| Task { station, thread };
    let shown = thread::scope(|scope| {
        scope.spawn(|| station.note(reader::work(task(READER), job)));
        scope.spawn(|| station.note(writer::work(task(WRITER), job, stop_writer)));
        scope.spawn(|| station.note(verifier::work(task(VERIFIER), job)));
        scope.spawn(|| station.note(clock::work(station)));
        let shown = light::work(task(LIGHT), job);
        station.end();
        shown
    });
    words::say(words::use_of_pool(&station.lock().progress));
    match (shown, station.problem()) {
        (Err(Halt::Problem(problem)), _) | (_, Some(problem)) => Err(problem),
        (Ok(shown), None) => Ok(shown),
        (Err(Halt::Over), None) => Err("the run ended before the light was decided".to_string()),
    }
}
