//! The program in both modes and on wrong command lines, as a user runs it.

mod common;

use common::{run, Folder, GREEN, OFF};
use std::fs;
use std::path::Path;
use std::process::Command;

#[test]
fn the_light_goes_green() {
    let (status, output, errors) = run(&[]);
    assert_eq!(status, 0, "{output}{errors}");
    assert!(output.ends_with(GREEN), "{output}");
    assert!(output.contains("10 of 10 files are on the drive byte for byte"), "{output}");
}

#[test]
fn the_light_stays_off_where_the_writer_stops() {
    let (status, output, errors) = run(&["--stop-writer"]);
    assert_eq!(status, 0, "{output}{errors}");
    assert!(output.contains("0 blocks are marked held"), "{output}");
    assert!(output.contains("would say yes: GREEN"), "{output}");
    assert!(output.contains("says not whole: off"), "{output}");
    assert!(output.contains("the writer has a call open"), "{output}");
    assert!(output.ends_with(OFF), "{output}");
}

#[test]
fn a_folder_is_copied() {
    let folder = Folder::new("folder");
    let (from, to) = (folder.path("from"), folder.path("to"));
    let files = [("a", 0), ("below/b", 1), ("below/more/c", 16_384), ("d", 16_385), ("e", 70_000)];
    fs::create_dir_all(Path::new(&from).join("below/more")).unwrap();
    fs::create_dir_all(Path::new(&from).join("nothing")).unwrap();
    for (name, length) in files {
        let bytes: Vec<u8> = (0..length).map(|n: u32| (n % 251) as u8).collect();
        fs::write(Path::new(&from).join(name), bytes).unwrap();
    }
    let (status, output, errors) = run(&[&from, &to]);
    assert_eq!(status, 0, "{output}{errors}");
    assert!(output.ends_with(GREEN), "{output}");
    for (name, _) in files {
        assert_eq!(fs::read(Path::new(&from).join(name)).unwrap(), fs::read(Path::new(&to).join(name)).unwrap(), "{name}");
    }
    assert!(Path::new(&to).join("nothing").is_dir());

    let (status, output, errors) = run(&[&from, &to]);
    assert_eq!(status, 1, "a folder that is not empty is not written over");
    assert!(output.ends_with(OFF), "{output}");
    assert!(errors.contains("must be new or an empty folder"), "{errors}");
}

#[test]
fn one_small_file_and_a_stopped_writer() {
    let folder = Folder::new("small");
    let (from, to) = (folder.path("from"), folder.path("to"));
    fs::create_dir(&from).unwrap();
    fs::write(Path::new(&from).join("only"), b"its only bytes").unwrap();
    let (status, output, errors) = run(&["--stop-writer", &from, &to]);
    assert_eq!(status, 0, "{output}{errors}");
    assert!(output.contains("only has 0 of its 14 bytes there"), "{output}");
}

#[test]
fn a_drive_that_fails_ends_the_run() {
    let folder = Folder::new("full");
    let (from, to) = (folder.path("from"), folder.path("to"));
    fs::create_dir(&from).unwrap();
    fs::write(Path::new(&from).join("large"), vec![7; 400_000]).unwrap();
    // A shell in which no file may grow beyond some 100 blocks, and writing more is an error.
    let limited = "trap '' XFSZ; ulimit -f 100; exec \"$0\" \"$@\"";
    let output = Command::new("sh").args(["-c", limited, env!("CARGO_BIN_EXE_copier"), &from, &to]).output().unwrap();
    let errors = String::from_utf8_lossy(&output.stderr);
    assert_eq!(output.status.code(), Some(1), "{errors}");
    assert!(errors.contains("cannot write"), "{errors}");
    let output = String::from_utf8_lossy(&output.stdout);
    assert!(output.ends_with(OFF), "{output}");
}

#[test]
fn wrong_command_lines_are_explained() {
    let folder = Folder::new("wrong");
    let (here, absent, inside) = (folder.path(""), folder.path("absent"), folder.path("inside"));
    for (arguments, status, words) in [
        (vec!["--stop"], 2, "unknown option '--stop'"),
        (vec!["one"], 2, "FROM and TO are wanted"),
        (vec!["one", "two", "three"], 2, "FROM and TO are wanted"),
        (vec![&absent, &inside], 1, "there is no folder"),
        (vec![&here, &inside], 1, "lies inside"),
    ] {
        let (answered, _, errors) = run(&arguments);
        assert_eq!(answered, status, "{errors}");
        assert!(errors.contains(words), "{errors}");
    }
    let (status, output, _) = run(&["--help"]);
    assert_eq!(status, 0);
    assert!(output.contains("usage: copier"), "{output}");
}
