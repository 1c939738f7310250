//! What must hold before green besides verified files and a whole pool: the folders are on the drive, and the card is as it was listed.

use crate::card::Card;
use crate::files::Job;
use std::fs::File;
use std::path::Path;

/// Writes the folders through to the drive, then looks at the card once more.
pub fn confirm(job: &Job) -> Result<(), String> {
    job.drive_folders().iter().chain(&job.above).try_for_each(|folder| write_through(folder))?;
    unchanged(job)
}

/// Has the system bring a folder, that is the names in it, to the drive.
fn write_through(folder: &Path) -> Result<(), String> {
    let written = File::open(folder).and_then(|folder| folder.sync_all());
    written.map_err(|error| format!("cannot write the folder {} through to the drive: {error}", folder.display()))
}

/// Whether the card has the files and folders that were listed, each file with the length and the time that it had then.
fn unchanged(job: &Job) -> Result<(), String> {
    let now = Card::list(&job.from)?;
    if now == job.card {
        return Ok(());
    }
    let changed = job.card.files.iter().find(|file| !now.files.contains(file));
    Err(match changed {
        Some(file) => format!("{} has another length or time than when it was copied, or is gone", job.from.join(&file.path).display()),
        None => format!("the folders in {} have changed since they were listed, or a file has come", job.from.display()),
    })
}
