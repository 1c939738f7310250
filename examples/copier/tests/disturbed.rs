//! Runs that are disturbed while they copy: the light stays off.

mod common;

use common::{copier, run_disturbed, Folder, GREEN, OFF};
use std::fs::{self, File, OpenOptions};
use std::io::Write;
use std::process::{Child, Command};
use std::time::{Duration, SystemTime};

/// Copies a folder with two clips and an empty folder, and lets something happen meanwhile.
fn copy_disturbed(name: &str, disturb: impl FnOnce(&Folder)) -> (i32, String, String) {
    let folder = Folder::new(name);
    fs::create_dir_all(folder.path("from/nothing")).unwrap();
    for clip in ["from/first", "from/second"] {
        fs::write(folder.path(clip), vec![7; 6_000_000]).unwrap();
    }
    let command = copier(&folder.0, &[&folder.path("from"), &folder.path("to")]);
    run_disturbed(command, |_| disturb(&folder))
}

/// The light stayed off, and the copier says why.
fn stays_off((status, output, errors): (i32, String, String), why: &str) {
    assert_eq!(status, 1, "{output}{errors}");
    assert!(errors.contains(why), "{output}{errors}");
    assert!(output.ends_with(OFF) && !output.contains("GREEN"), "{output}{errors}");
}

#[test]
fn left_alone_it_goes_green() {
    let (status, output, errors) = copy_disturbed("alone", |_| {});
    assert_eq!(status, 0, "{output}{errors}");
    assert!(output.ends_with(GREEN), "{output}{errors}");
}

#[test]
fn a_file_that_grows() {
    let ended = copy_disturbed("grows", |folder| {
        let mut clip = OpenOptions::new().append(true).open(folder.path("from/first")).unwrap();
        clip.write_all(b"one more frame").unwrap();
    });
    stays_off(ended, "first has another length or time");
}

#[test]
fn a_file_whose_time_changes() {
    let ended = copy_disturbed("time", |folder| {
        let clip = File::options().write(true).open(folder.path("from/second")).unwrap();
        clip.set_modified(SystemTime::now() + Duration::from_secs(60)).unwrap();
    });
    stays_off(ended, "second has another length or time");
}

#[test]
fn a_file_that_goes() {
    let ended = copy_disturbed("goes", |folder| fs::remove_file(folder.path("from/second")).unwrap());
    stays_off(ended, "second");
}

#[test]
fn a_file_that_comes() {
    let ended = copy_disturbed("comes", |folder| fs::write(folder.path("from/third"), b"a late clip").unwrap());
    stays_off(ended, "a file has come");
}

#[test]
fn a_folder_that_cannot_be_written_through() {
    let ended = copy_disturbed("through", |folder| fs::remove_dir(folder.path("to/nothing")).unwrap());
    stays_off(ended, "nothing through to the drive");
}

/// Sends a signal to a run.
fn signal(run: &Child, name: &str) {
    let sent = Command::new("sh").args(["-c", "kill -s \"$0\" \"$1\"", name, &run.id().to_string()]).status();
    assert!(sent.unwrap().success());
}

#[test]
fn a_run_that_is_stopped_cleans_up() {
    for (name, number) in [("INT", 2), ("TERM", 15)] {
        for mode in [&[][..], &["--stop-writer"]] {
            let folder = Folder::new(&format!("stopped-{name}-{}", mode.len()));
            let (status, output, errors) = run_disturbed(copier(&folder.0, mode), |run| signal(run, name));
            assert_eq!(status, 128 + number, "{output}{errors}");
            assert_eq!(errors, format!("copier: stopped by signal {number}\n"), "the copy is not finished first: {output}");
            assert!(output.ends_with(OFF) && !output.contains("pull it"), "{output}{errors}");
            assert_eq!(fs::read_dir(&folder.0).unwrap().count(), 0, "the temporary folder is removed");
        }
    }
}
