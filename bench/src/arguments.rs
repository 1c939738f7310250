//! The words on the command line.

use std::path::PathBuf;
use std::process;

const USAGE: &str = "bench [--rounds CALLS SCRIPTS] [--write FILE]

    --rounds CALLS SCRIPTS    how often each call and each script is timed in each of twenty passes
    --write FILE              write the document to this file too";

/// How often each call and each script is timed in a pass.
#[derive(Clone, Copy, Debug)]
pub struct Rounds {
    pub calls: usize,
    pub scripts: usize,
}

/// What is asked for.
pub struct Arguments {
    pub rounds: Rounds,
    pub write: Option<PathBuf>,
}

/// Reads the words; anything else ends the run with the usage.
pub fn arguments() -> Arguments {
    let mut given = Arguments { rounds: Rounds { calls: 102, scripts: 25 }, write: None };
    let mut words = std::env::args().skip(1);
    while let Some(word) = words.next() {
        let understood = match word.as_str() {
            "--rounds" => rounds(words.next(), words.next()).map(|rounds| given.rounds = rounds),
            "--write" => words.next().map(|file| given.write = Some(file.into())),
            _ => None,
        };
        if understood.is_none() {
            eprintln!("{USAGE}");
            process::exit(2);
        }
    }
    given
}

/// Two numbers above 0.
fn rounds(calls: Option<String>, scripts: Option<String>) -> Option<Rounds> {
    let number = |word: Option<String>| word?.parse().ok().filter(|&number: &usize| number > 0);
    Some(Rounds { calls: number(calls)?, scripts: number(scripts)? })
}
