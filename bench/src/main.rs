//! How long the calls of Saltbalance take, beside the same calls in plain C; and its script program beside a plain C runner.

mod arguments;
mod call;
mod churn;
mod crafted;
mod figures;
mod goals;
mod kind;
mod linked;
mod machine;
mod measure;
mod numbers;
mod patch;
mod program;
mod quietest;
mod random;
mod report;
mod script;
mod shape;
mod spoilt;
mod starts;
mod tables;
mod together;
mod words;
mod wrong;

use arguments::Rounds;
use call::Pool;
use figures::Figures;
use program::Timed;
use quietest::PASSES;
use std::{fs, io};

/// The pools to compare, the proved one first.
fn pools() -> Vec<Box<dyn Pool>> {
    vec![Box::new(linked::Proved), Box::new(linked::PlainC)]
}

/// The calls at each shape: compared at all of them first, then measured in passes over all of them.
fn calls(pools: &[Box<dyn Pool>], rounds: usize) -> Vec<Figures> {
    eprintln!("bench: comparing the calls");
    let mut all: Vec<Figures> = shape::SHAPES.iter().map(|&shape| Figures::compare(shape, pools)).collect();
    for pass in 1..=PASSES {
        eprintln!("bench: measuring the calls, pass {pass} of {PASSES}");
        all.iter_mut().for_each(|figures| figures.measure(pools, rounds));
    }
    all
}

/// The scripts, where the program is there to run them.
fn scripts(rounds: usize) -> io::Result<Option<Vec<Timed>>> {
    let Some(program) = program::find() else {
        eprintln!("bench: the script program is left out: target/bin/saltbalance is missing (./saltbalance at the root builds it)");
        return Ok(None);
    };
    eprintln!("bench: measuring the scripts");
    program::measure(&program, rounds).map(Some)
}

fn main() -> io::Result<()> {
    let given = arguments::arguments();
    let pools = pools();
    let names: Vec<&str> = pools.iter().map(|pool| pool.name()).collect();
    let figures = calls(&pools, given.rounds.calls);
    let scripts = scripts(given.rounds.scripts)?;
    let document = report::document(&names, &figures, scripts.as_deref(), given.rounds);
    print!("{document}");
    match given.write {
        Some(file) => fs::write(file, document),
        None => Ok(()),
    }
}
