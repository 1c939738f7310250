//! `model script PROGRAM`: a script program's listings and the model's.

use crate::counts::{Tally, Tried};
use crate::generate::scripts::{Ends, Kind, KINDS};
use crate::random::Random;
use crate::script::*;
use crate::settings::Settings;
use std::io::{Read, Write};
use std::process::{Command, Stdio};
use std::thread;

/// Each tag, its name and the answers that it can have, the last line standing for all other tags. Each
/// answer must occur. The clock's end is out of a script's reach.
const TAGS: &[(Option<u8>, &str, &[usize])] = &[
    (Some(SHAPE_TAG), "1 shape", &[1, 17, 53]),
    (Some(ASK_TAG), "2 ask", &[4, 5, 7, 9, 10, 17, 40]),
    (Some(GO_ON_TAG), "3 go on", &[4, 5, 8, 14, 15, 17, 41, 42, 43, 44, 45, 46, 47, 48]),
    (Some(GIVE_TAG), "4 give", &[4, 5, 7, 11, 12, 13, 17, 40]),
    (Some(SWITCH_TAG), "5 switch", &[4, 6, 17, 49]),
    (Some(TICK_TAG), "6 tick", &[17, 50]),
    (Some(WHOLE_TAG), "7 whole", &[17, 51, 52]),
    (None, "other tags", &[17]),
];

/// The place in `TAGS` of a tag as it is listed.
fn place_of(listed: usize) -> usize {
    let own = TAGS.iter().position(|&(tag, ..)| tag.map(usize::from) == Some(listed));
    own.unwrap_or(TAGS.len() - 1)
}

/// Makes the runs and prints what was tried; an error says where the listings differ or what was missed.
pub fn run(settings: Settings, program: &str) -> Result<(), String> {
    let mut answers: Vec<Tally<usize>> = TAGS.iter().map(|(_, _, answers)| Tally::of(answers)).collect();
    let mut tried = vec![Tried::default(); KINDS.len()];
    for run in settings.numbers() {
        let which = (run % KINDS.len() as u64) as usize;
        let script = (KINDS[which].make)(&mut Random::of_run(settings.seed, run));
        let expected = listing(&script);
        compare(program, &script, &expected).map_err(|text| {
            let (seed, name) = (settings.seed, KINDS[which].name);
            format!(
                "DIFFERENCE in seed {seed}, run {run}, {name}\n{text}\
                 alone again with MODEL_SEED={seed} MODEL_FIRST={run} MODEL_RUNS=1"
            )
        })?;
        let ends_bad = note(&mut answers, &expected);
        check_end(&KINDS[which], ends_bad)?;
        tried[which].times += 1;
        tried[which].valid += u64::from(ends_bad.is_none());
    }
    println!("{}", report(&answers, &tried));
    missed(&answers, &tried)
}

/// Runs the program on a script and compares what it wrote with the model's listing.
fn compare(program: &str, script: &[u8], expected: &[u8]) -> Result<(), String> {
    let written = listing_of(program, script)?;
    if written == expected {
        return Ok(());
    }
    let (written, expected) = (String::from_utf8_lossy(&written), String::from_utf8_lossy(expected));
    let mut text = format!("script, {} bytes: {}\n", script.len(), hexadecimal(script));
    let mut pairs = written.split('\n').zip(expected.split('\n')).enumerate();
    match pairs.find(|(_, (theirs, ours))| theirs != ours) {
        Some((line, (theirs, ours))) => {
            text.push_str(&format!("line {line}: model {ours:?}, program {theirs:?}\n"));
        }
        None => text.push_str("one listing goes on where the other ends\n"),
    }
    text.push_str(&format!("model:\n{}program:\n{}", shortened(&expected), shortened(&written)));
    Err(text)
}

/// The last lines of a listing.
fn shortened(listing: &str) -> String {
    let lines: Vec<&str> = listing.split_inclusive('\n').collect();
    let skipped = lines.len().saturating_sub(30);
    let before = if skipped > 0 { format!("({skipped} lines before)\n") } else { String::new() };
    before + &lines[skipped..].concat()
}

/// Bytes as two hexadecimal digits each.
fn hexadecimal(bytes: &[u8]) -> String {
    bytes.iter().map(|byte| format!("{byte:02x}")).collect()
}

/// What the program writes on standard output for this script on its standard input.
fn listing_of(program: &str, script: &[u8]) -> Result<Vec<u8>, String> {
    let mut child = Command::new(program)
        .stdin(Stdio::piped())
        .stdout(Stdio::piped())
        .spawn()
        .map_err(|error| format!("cannot run {program}: {error}\n"))?;
    let (mut input, mut output) = (child.stdin.take().unwrap(), child.stdout.take().unwrap());
    let mut written = Vec::new();
    let read = thread::scope(|scope| {
        // A program may stop reading before the end of a script that is too long.
        scope.spawn(move || drop(input.write_all(script)));
        output.read_to_end(&mut written)
    });
    read.map_err(|error| format!("cannot read from {program}: {error}\n"))?;
    let status = child.wait().map_err(|error| format!("cannot wait for {program}: {error}\n"))?;
    match status.code() {
        Some(_) => Ok(written),
        None => Err(format!("the program was killed: {status}\n{}\n", hexadecimal(script))),
    }
}

/// Counts the answers of a listing; the refusal 1 or 17 that it ends with, if it does.
fn note(answers: &mut [Tally<usize>], listing: &[u8]) -> Option<usize> {
    let text = String::from_utf8_lossy(listing);
    let mut last = 0;
    for line in text.lines().skip(1) {
        let numbers: Vec<usize> = line.split(' ').map(|number| number.parse().unwrap()).collect();
        last = numbers[2];
        answers[place_of(numbers[1])].note(last);
    }
    [1, 17].contains(&last).then_some(last)
}

/// The listing ends as the script's kind says.
fn check_end(kind: &Kind, ends_bad: Option<usize>) -> Result<(), String> {
    let right = match kind.ends {
        Ends::Well => ends_bad.is_none(),
        Ends::Bad => ends_bad == Some(17),
        Ends::NoShape => ends_bad == Some(1),
        Ends::Either => true,
    };
    if right {
        Ok(())
    } else {
        Err(format!("a script of the kind \"{}\" ends with {ends_bad:?}", kind.name))
    }
}

/// What was tried.
fn report(answers: &[Tally<usize>], tried: &[Tried]) -> String {
    let mut text = String::from("answers by tag (number×times)\n");
    for ((_, name, _), answers) in TAGS.iter().zip(answers) {
        text.push_str(&format!("  {name:<10} {}\n", answers.in_one_line()));
    }
    text.push_str("scripts: times tried, times without a bad record, kind\n");
    for (kind, tried) in KINDS.iter().zip(tried) {
        text.push_str(&format!("{:>8} {:>8}  {}\n", tried.times, tried.valid, kind.name));
    }
    let all: u64 = tried.iter().map(|tried| tried.times).sum();
    text.push_str(&format!("{all} scripts, program and model agree on all"));
    text
}

/// An error if something that must occur never did.
fn missed(answers: &[Tally<usize>], tried: &[Tried]) -> Result<(), String> {
    let mut missed = Vec::new();
    for ((_, name, _), answers) in TAGS.iter().zip(answers) {
        missed.extend(answers.never().iter().map(|answer| format!("{name} never had answer {answer}")));
    }
    let untried = KINDS.iter().zip(tried).filter(|(_, tried)| tried.times == 0);
    missed.extend(untried.map(|(kind, _)| format!("never tried: {}", kind.name)));
    if missed.is_empty() {
        return Ok(());
    }
    Err(format!("NOT ALL WAS TRIED (more runs: MODEL_RUNS)\n{}", missed.join("\n")))
}
