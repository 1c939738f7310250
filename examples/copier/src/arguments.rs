//! The command line.

use std::ffi::OsString;
use std::path::PathBuf;

pub const USAGE: &str = "\
copier: copies a folder through one memory pool, verifies it, and turns a light green

usage: copier [--stop-writer] [FROM TO]

  FROM TO         copies the folder FROM into the folder TO, which must be new or empty;
                  without them, a set of files is made in a temporary folder, copied and removed
  --stop-writer   the writer stops halfway through taking its last buffer: the light must stay off
  --help          shows this text

The last line of every run says whether the light is green. SIGINT or SIGTERM stops the run: the light stays off,
and what was copied into TO so far stays there.

exit status: 0 if the light showed what is right, 1 if it did not or the copy failed, 2 for a wrong command line,
             130 or 143 if the run was stopped";

/// What the command line asks for.
#[derive(Debug, PartialEq, Eq)]
pub struct Arguments {
    pub stop_writer: bool,
    /// The folders to copy from and to; none for a set of files that is made.
    pub folders: Option<(PathBuf, PathBuf)>,
}

/// What to do by the command line.
#[derive(Debug, PartialEq, Eq)]
pub enum Wish {
    Copy(Arguments),
    Help,
}

/// Reads the command line; a mistake is answered in words.
pub fn read(words: impl Iterator<Item = OsString>) -> Result<Wish, String> {
    let mut stop_writer = false;
    let mut folders = Vec::new();
    for word in words {
        match word.to_str() {
            Some("--help" | "-h") => return Ok(Wish::Help),
            Some("--stop-writer") => stop_writer = true,
            Some(option) if option.starts_with('-') => return Err(format!("unknown option '{option}'")),
            _ => folders.push(PathBuf::from(word)),
        }
    }
    let folders = match <[PathBuf; 2]>::try_from(folders) {
        Ok([from, to]) => Some((from, to)),
        Err(none) if none.is_empty() => None,
        Err(some) => return Err(format!("FROM and TO are wanted, or neither: folders given: {}", some.len())),
    };
    Ok(Wish::Copy(Arguments { stop_writer, folders }))
}
