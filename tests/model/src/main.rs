//! The model's commands; see `USAGE`.

use model::settings::Settings;
use std::env;
use std::io::{self, Read, Write};
use std::process::ExitCode;

const USAGE: &str = "\
model calls           compares the library with the model, call by call
model script PROGRAM  compares a script program's listings with the model's
model listing         reads a script on standard input, writes the model's listing

MODEL_SEED   the seed; the same seed gives the same runs
MODEL_RUNS   how many runs
MODEL_FIRST  the number of the first run, to make one run again alone";

fn main() -> ExitCode {
    let arguments: Vec<String> = env::args().skip(1).collect();
    let words: Vec<&str> = arguments.iter().map(String::as_str).collect();
    let outcome = match words[..] {
        ["calls"] => calls(),
        ["script", program] => script(program),
        ["listing"] => listing(),
        _ => Err(USAGE.to_string()),
    };
    match outcome {
        Ok(()) => ExitCode::SUCCESS,
        Err(text) => {
            // The status says it even where nobody reads the text to its end.
            let _ = writeln!(io::stderr(), "{text}");
            ExitCode::FAILURE
        }
    }
}

/// The runs of `model calls` that take some ten to twenty seconds.
#[cfg(feature = "library")]
const CALL_RUNS: u64 = 3000;

#[cfg(feature = "library")]
fn calls() -> Result<(), String> {
    model::calls::run(begun("calls", CALL_RUNS)?)
}

#[cfg(not(feature = "library"))]
fn calls() -> Result<(), String> {
    Err("built without the library: build with the default features".to_string())
}

/// The runs of `model script` that take a few seconds.
const SCRIPT_RUNS: u64 = 720;

fn script(program: &str) -> Result<(), String> {
    let settings = begun("script", SCRIPT_RUNS)?;
    model::program::run(settings, program)
}

/// The settings, printed.
fn begun(command: &str, usual_runs: u64) -> Result<Settings, String> {
    let settings = Settings::from_environment(usual_runs)?;
    println!("model {command}: seed {}, {} runs from run {}", settings.seed, settings.runs, settings.first);
    Ok(settings)
}

/// The model's listing of the script on standard input.
fn listing() -> Result<(), String> {
    let mut script = Vec::new();
    let read = io::stdin().lock().read_to_end(&mut script);
    read.map_err(|error| format!("cannot read the script: {error}"))?;
    let written = io::stdout().lock().write_all(&model::script::listing(&script));
    written.map_err(|error| format!("cannot write the listing: {error}"))
}
