//! A copier: card reader, writer, verifier and light take their buffers from one Saltbalance pool. The light goes green when the copy is
//! complete and every buffer has come home. With `--stop-writer` the writer stops halfway through taking its last buffer, and the light stays off.

mod arguments;
mod card;
mod check;
mod clips;
mod clock;
mod confirm;
mod copy;
mod files;
mod folders;
mod light;
mod memory;
mod reader;
mod seen;
mod station;
mod stop;
mod task;
mod verifier;
mod words;
mod writer;

use arguments::{Arguments, Wish};
use clips::Temporary;
use files::Job;
use light::Shown;
use std::env;
use std::panic;
use std::process::ExitCode;

fn main() -> ExitCode {
    let arguments = match arguments::read(env::args_os().skip(1)) {
        Ok(Wish::Copy(arguments)) => arguments,
        Ok(Wish::Help) => {
            words::say(arguments::USAGE);
            return ExitCode::SUCCESS;
        }
        Err(mistake) => {
            eprintln!("copier: {mistake}\n\n{}", arguments::USAGE);
            return ExitCode::from(2);
        }
    };
    stop::watch();
    say_off_in_a_panic();
    let ended = run(arguments);
    if let Err(problem) = &ended {
        eprintln!("copier: {problem}");
    }
    words::say(words::light(&ended));
    status(&ended)
}

/// The exit status: for a run that a signal stopped, 128 and the signal's number, as shells count.
fn status(ended: &Result<Shown, String>) -> ExitCode {
    match (ended, stop::came()) {
        (Ok(_), _) => ExitCode::SUCCESS,
        (Err(_), None) => ExitCode::FAILURE,
        (Err(_), Some(signal)) => ExitCode::from(128 + signal as u8),
    }
}

/// A task that panics ends the program, and the light's line is still its last.
fn say_off_in_a_panic() {
    let report = panic::take_hook();
    panic::set_hook(Box::new(move |about| {
        report(about);
        words::say(words::OFF);
    }));
}

/// Copies, and looks whether the light showed what is right. Answers what it showed; a temporary folder is gone then.
fn run(arguments: Arguments) -> Result<Shown, String> {
    let stop_writer = arguments.stop_writer;
    let made: Temporary;
    let (from, to) = match arguments.folders {
        Some(folders) => folders,
        None => {
            let unmade = |error| format!("cannot make a set of files in the temporary folder: {error}");
            made = Temporary::new().map_err(unmade)?;
            let card = made.path().join("card");
            clips::make(&card).map_err(unmade)?;
            (card, made.path().join("drive"))
        }
    };
    let job = folders::job(from, to)?;
    words::say(words::beginning(&job));
    let shown = copy::copy(&job, stop_writer)?;
    judge(&job, shown, stop_writer)?;
    stop::check()?;
    Ok(shown)
}

/// Whether the light showed what is right: green for a copy that is there byte for byte, off for one that lacks its end.
fn judge(job: &Job, shown: Shown, stop_writer: bool) -> Result<(), String> {
    let differing = check::differing(job)?;
    let same = job.card.files.len() - differing.len();
    words::say(format!("\nCompared without the pool: {same} of {} files are on the drive byte for byte.", job.card.files.len()));
    for file in &differing {
        let (there, all) = (words::number(check::on_drive(job, file)), words::number(file.length));
        words::say(format!("{} has {there} of its {all} bytes there.", file.path.display()));
    }
    match (shown, stop_writer, differing.len()) {
        (Shown::Green, false, 0) => words::say("Green is right."),
        (Shown::Off, true, 1) => words::say("Green would cost the end of that file. Off is right."),
        (Shown::Green, ..) => return Err("the light was green, and should not have been".to_string()),
        (Shown::Off, ..) => return Err("the light stayed off, and this is not what should have happened".to_string()),
    }
    Ok(())
}
