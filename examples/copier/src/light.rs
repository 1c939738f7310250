//! The light: shows how far the copy is, and goes green if, asked in this order,
//!
//! 1. no orders are left, and every file is verified: so it was also written through to the drive;
//! 2. the folders are written through to the drive, and the card is as it was listed (`confirm`);
//! 3. no orders are left, and the pool is whole.

use crate::confirm;
use crate::files::Job;
use crate::seen::Seen;
use crate::station::{Halt, Progress};
use crate::task::Task;
use crate::words;
use saltbalance::{Answer, Id, Millis, Refusal};
use std::thread;
use std::time::{Duration, Instant};

/// What the light showed at the end.
#[derive(Clone, Copy, Debug, PartialEq, Eq)]
pub enum Shown {
    Green,
    Off,
}

/// The time between two looks, and how long a light that stays off is watched.
const PAUSE: Duration = Duration::from_millis(5);
const WATCH: Duration = Duration::from_millis(1500);

/// How long the light waits for a copy in which nothing moves.
const PATIENCE: Duration = Duration::from_secs(120);

/// How long the light waits for a buffer for its line. It tries again later.
const LINE_WAIT: Millis = Millis(100);

pub fn work(task: Task<'_>, job: &Job) -> Result<Shown, Halt> {
    let mut tenths_shown = 0;
    let mut moved = (Progress::default(), Instant::now());
    loop {
        let (seen, done, stopped) = task.station.look(|shared| (Seen::now(shared), shared.progress, shared.writer_stopped))?;
        if tenths(&done, job) > tenths_shown && show_line(task, &words::progress(&done, job))? {
            tenths_shown = tenths(&done, job);
        }
        if seen.green() && done.verified_files == job.card.files.len() {
            confirm::confirm(job)?;
            let seen = task.station.look(Seen::now)?;
            if seen.green() {
                words::say(format!("\n{}", words::rules(&seen)));
                return Ok(Shown::Green);
            }
        }
        if let (Some((piece, level)), true) = (stopped, seen.old_rule()) {
            words::say(format!("{}\n{}", words::stopped(piece, level, job), words::rules(&seen)));
            return watch(task);
        }
        if done != moved.0 {
            moved = (done, Instant::now());
        } else if moved.1.elapsed() > PATIENCE {
            words::say(format!("Nothing has moved for {} seconds.", PATIENCE.as_secs()));
            return Ok(Shown::Off);
        }
        thread::sleep(PAUSE);
    }
}

/// How many tenths of the bytes are verified.
fn tenths(done: &Progress, job: &Job) -> u64 {
    10 * done.verified_bytes / job.card.bytes().max(1)
}

/// Writes a line by way of a buffer of the pool, and answers whether one came in time.
fn show_line(task: Task<'_>, line: &str) -> Result<bool, Halt> {
    task.ask(line.len(), LINE_WAIT)?;
    let Some(block) = granted_in_time(task)? else {
        return Ok(false);
    };
    task.station.memory.with(block, line.len(), |buffer| {
        buffer.copy_from_slice(line.as_bytes());
        words::say(String::from_utf8_lossy(buffer));
    });
    task.bring_home(block)?;
    Ok(true)
}

/// Goes on until the buffer is granted, or the time is over.
fn granted_in_time(task: Task<'_>) -> Result<Option<Id>, Halt> {
    loop {
        match task.go_on()? {
            Ok(Answer::Granted { id }) => return Ok(Some(id)),
            Ok(_) => {}
            Err(Refusal::TimedOut) => return Ok(None),
            Err(refusal) => return Err(refusal.into()),
        }
    }
}

/// Looks on for a while at a light that is off.
fn watch(task: Task<'_>) -> Result<Shown, Halt> {
    let begin = Instant::now();
    let mut looks = 0;
    while begin.elapsed() < WATCH {
        if task.station.look(Seen::now)?.green() {
            return Ok(Shown::Green);
        }
        looks += 1;
        thread::sleep(PAUSE);
    }
    words::say(format!("{looks} more looks in {} milliseconds, and the light was never green.", WATCH.as_millis()));
    Ok(Shown::Off)
}
