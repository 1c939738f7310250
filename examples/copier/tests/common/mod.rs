//! What the tests use: runs of the program, and folders of a test's own.
#![allow(dead_code)]

use std::env;
use std::fs;
use std::io::{BufRead, BufReader, Read};
use std::path::{Path, PathBuf};
use std::process::{self, Child, Command, Output, Stdio};

/// The two last lines that a run may have.
pub const GREEN: &str = "LIGHT: GREEN. The copy is on the drive, pull it.\n";
pub const OFF: &str = "LIGHT: off. Do not pull the drive.\n";

/// The program, with its temporary folders made in a folder.
pub fn copier(temporary: &Path, arguments: &[&str]) -> Command {
    let mut command = Command::new(env!("CARGO_BIN_EXE_copier"));
    command.args(arguments).env("TMPDIR", temporary);
    command
}

/// The status, the output and the errors of a run.
pub fn run(arguments: &[&str]) -> (i32, String, String) {
    let Output { status, stdout, stderr } = copier(&env::temp_dir(), arguments).output().unwrap();
    (status.code().unwrap_or(-1), text(&stdout), text(&stderr))
}

/// The same of a run in which something happens as soon as its first line is there: the card is listed then, and the copy begins.
pub fn run_disturbed(mut command: Command, disturb: impl FnOnce(&Child)) -> (i32, String, String) {
    let mut child = command.stdout(Stdio::piped()).stderr(Stdio::piped()).spawn().unwrap();
    let mut output = String::new();
    let mut stdout = BufReader::new(child.stdout.take().unwrap());
    stdout.read_line(&mut output).unwrap();
    disturb(&child);
    stdout.read_to_string(&mut output).unwrap();
    let ended = child.wait_with_output().unwrap();
    (ended.status.code().unwrap_or(-1), output, text(&ended.stderr))
}

fn text(bytes: &[u8]) -> String {
    String::from_utf8_lossy(bytes).into_owned()
}

/// A folder of a test's own, removed at the end.
pub struct Folder(pub PathBuf);

impl Folder {
    pub fn new(name: &str) -> Folder {
        let path = env::temp_dir().join(format!("copier-test-{name}-{}", process::id()));
        fs::create_dir(&path).unwrap();
        Folder(path)
    }

    pub fn path(&self, name: &str) -> String {
        self.0.join(name).to_str().unwrap().to_string()
    }
}

impl Drop for Folder {
    fn drop(&mut self) {
        let _ = fs::remove_dir_all(&self.0);
    }
}
