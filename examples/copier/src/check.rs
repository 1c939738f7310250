//! Compares the two folders once more, byte for byte, without the pool.

use crate::card::CardFile;
use crate::files::Job;
use crate::stop;
use std::fs::File;
use std::io::{self, BufRead, BufReader, ErrorKind};
use std::path::Path;

/// The files of the card that are not on the drive byte for byte.
pub fn differing(job: &Job) -> Result<Vec<&CardFile>, String> {
    let mut differing = Vec::new();
    for file in &job.card.files {
        let problem = |error| format!("cannot compare {}: {error}", file.path.display());
        if !same(&job.from.join(&file.path), &job.to.join(&file.path)).map_err(problem)? {
            differing.push(file);
        }
    }
    Ok(differing)
}

/// How many bytes of a file are on the drive.
pub fn on_drive(job: &Job, file: &CardFile) -> u64 {
    job.to.join(&file.path).metadata().map_or(0, |about| about.len())
}

/// Whether the copy is there and holds the same bytes.
fn same(original: &Path, copy: &Path) -> io::Result<bool> {
    let mut original = BufReader::new(File::open(original)?);
    let mut copy = match File::open(copy) {
        Err(error) if error.kind() == ErrorKind::NotFound => return Ok(false),
        opened => BufReader::new(opened?),
    };
    loop {
        stop::check().map_err(io::Error::other)?;
        let (left, right) = (original.fill_buf()?, copy.fill_buf()?);
        let length = left.len().min(right.len());
        if left[..length] != right[..length] {
            return Ok(false);
        }
        if length == 0 {
            return Ok(left.len() == right.len());
        }
        original.consume(length);
        copy.consume(length);
    }
}
