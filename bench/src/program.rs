//! The script program beside the plain C runner: whole processes, timed.

use crate::measure::median;
use crate::quietest::{Quietest, PASSES};
use crate::script::{scripts, Script};
use crate::shape::SHAPES;
use std::fs::{self, File};
use std::io;
use std::path::{Path, PathBuf};
use std::process::{self, Command, Stdio};
use std::time::Instant;

/// A script and the times of whole processes in nanoseconds.
pub struct Timed {
    pub script: Script,
    times: Quietest,
}

/// How much of a script a process is handed.
#[derive(Clone, Copy)]
pub enum Part {
    Whole,
    Half,
    Empty,
}

impl Part {
    const ALL: [Part; 3] = [Part::Whole, Part::Half, Part::Empty];

    /// So many of a script's records.
    fn records(self, script: &Script) -> usize {
        match self {
            Part::Whole => script.records(),
            Part::Half => script.records() / 2,
            Part::Empty => 0,
        }
    }
}

impl Timed {
    /// The time of a process that is handed a part: program 0 is the proved one, 1 the plain C runner.
    pub fn process(&self, part: Part, program: usize) -> f64 {
        self.times.times()[2 * part as usize + program]
    }

    /// Nanoseconds for a record, of those in the script's second half.
    pub fn record(&self, program: usize) -> f64 {
        let records = Part::Whole.records(&self.script) - Part::Half.records(&self.script);
        (self.process(Part::Whole, program) - self.process(Part::Half, program)) / records as f64
    }

    /// Nanoseconds for a record, with what the program does at its start: the whole process less the plain C runner's with an empty script,
    /// as what any process takes.
    pub fn with_start(&self, program: usize) -> f64 {
        (self.process(Part::Whole, program) - self.process(Part::Empty, 1)) / Part::Whole.records(&self.script) as f64
    }
}

/// The proved program: SALTBALANCE_PROGRAM, else where the root's command builds it. None where it is missing.
pub fn find() -> Option<PathBuf> {
    let built = Path::new(env!("CARGO_MANIFEST_DIR")).join("../target/bin/saltbalance");
    let program = std::env::var_os("SALTBALANCE_PROGRAM").map_or(built, PathBuf::from);
    program.is_file().then_some(program)
}

/// What a program prints for a script.
fn listing(program: &Path, script: &Path) -> io::Result<Vec<u8>> {
    Ok(Command::new(program).stdin(File::open(script)?).output()?.stdout)
}

/// How long a program takes for a script, in nanoseconds; what it prints goes nowhere.
fn once(program: &Path, script: &Path) -> io::Result<f64> {
    let input = File::open(script)?;
    let begun = Instant::now();
    Command::new(program).stdin(input).stdout(Stdio::null()).status()?;
    Ok(begun.elapsed().as_nanos() as f64)
}

/// Ends the run where both programs do not print the same for a script.
fn compare(programs: [&Path; 2], script: &Script, file: &Path) -> io::Result<()> {
    if listing(programs[0], file)? != listing(programs[1], file)? {
        eprintln!("bench: the script program and the plain C runner print different listings: {}, {:?}", script.name, script.shape);
        process::exit(1);
    }
    Ok(())
}

/// Times a script by both programs: the medians of some rounds, in each of which both have their turn with each part of the script.
fn time(programs: [&Path; 2], files: &[PathBuf], rounds: usize) -> io::Result<Vec<f64>> {
    let mut samples = vec![vec![]; 2 * files.len()];
    for _ in 0..rounds {
        for (n, samples) in samples.iter_mut().enumerate() {
            samples.push(once(programs[n % 2], &files[n / 2])?);
        }
    }
    Ok(samples.into_iter().map(median).collect())
}

/// Times all scripts at the smallest and at the largest shape, in files of this folder.
fn in_folder(programs: [&Path; 2], folder: &Path, rounds: usize) -> io::Result<Vec<Timed>> {
    let scripts = scripts(SHAPES[0]).into_iter().chain(scripts(SHAPES[SHAPES.len() - 1]));
    let mut all: Vec<Timed> = scripts.map(|script| Timed { script, times: Quietest::default() }).collect();
    for _ in 0..PASSES {
        for Timed { script, times } in &mut all {
            let files = Part::ALL.map(|part| folder.join((part as usize).to_string()));
            for (part, file) in Part::ALL.iter().zip(&files) {
                fs::write(file, script.first(part.records(script)))?;
                compare(programs, script, file)?;
            }
            times.offer(time(programs, &files, rounds)?);
        }
    }
    Ok(all)
}

/// Times all scripts by the proved program and by the plain C runner.
pub fn measure(program: &Path, rounds: usize) -> io::Result<Vec<Timed>> {
    let folder = std::env::temp_dir().join(format!("saltbalance-bench-{}", process::id()));
    fs::create_dir_all(&folder)?;
    let timed = in_folder([program, Path::new(env!("BENCH_RUNNER"))], &folder, rounds);
    fs::remove_dir_all(&folder)?;
    timed
}
