//! A set of files to copy, made where no folder is given, in a temporary folder that goes away at the end.

use std::env;
use std::fs;
use std::io;
use std::path::{Path, PathBuf};
use std::process;
use std::time::{SystemTime, UNIX_EPOCH};

/// The files: their names and lengths. One is empty, some fit one buffer, and the last is a clip whose end fills no whole buffer.
const FILES: [(&str, usize); 10] = [
    ("day-1/clip-01.mov", 2_750_000),
    ("day-1/clip-02.mov", 1_048_576),
    ("day-1/clip-03.mov", 3_000_001),
    ("day-1/notes.txt", 777),
    ("day-1/slate.txt", 0),
    ("day-2/clip-04.mov", 1_600_000),
    ("day-2/clip-05.mov", 16_384),
    ("day-2/clip-06.mov", 2_222_222),
    ("day-2/clip-07.mov", 16_385),
    ("day-2/clip-08.mov", 1_700_000),
];

/// A temporary folder, removed when it is dropped.
pub struct Temporary {
    path: PathBuf,
}

impl Temporary {
    pub fn new() -> io::Result<Temporary> {
        let now = SystemTime::now().duration_since(UNIX_EPOCH).map_or(0, |since| since.as_nanos());
        let path = env::temp_dir().join(format!("saltbalance-copier-{}-{now}", process::id()));
        fs::create_dir(&path)?;
        Ok(Temporary { path })
    }

    pub fn path(&self) -> &Path {
        &self.path
    }
}

impl Drop for Temporary {
    fn drop(&mut self) {
        // What is left of a temporary folder is no reason to fail at the very end.
        let _ = fs::remove_dir_all(&self.path);
    }
}

/// Makes the files under a folder.
pub fn make(folder: &Path) -> io::Result<()> {
    for (number, (name, length)) in FILES.into_iter().enumerate() {
        let path = folder.join(name);
        if let Some(parent) = path.parent() {
            fs::create_dir_all(parent)?;
        }
        fs::write(path, bytes(number as u64 + 1, length))?;
    }
    Ok(())
}

/// Bytes without a pattern, the same at each run.
fn bytes(seed: u64, length: usize) -> Vec<u8> {
    let mut state = seed.wrapping_mul(0x9e37_79b9_7f4a_7c15);
    let mut next = || {
        state ^= state << 13;
        state ^= state >> 7;
        state ^= state << 17;
        (state >> 32) as u8
    };
    (0..length).map(|_| next()).collect()
}
