//! `model calls`: the library and the model, call by call.

use crate::compare::{compared, shown};
use crate::counts::{Tally, Tried};
use crate::damage::{self, Kind};
use crate::entry::{After, Entry, KINDS};
use crate::events::{events, of_shape, EVENTS, SECOND_MERGE};
use crate::generate::history::{next, Manners};
use crate::generate::{arguments, shapes, states};
use crate::random::Random;
use crate::rules::answers::MERGED;
use crate::rules::check_tables;
use crate::rules::lent::{Lent, Record, Tables};
use crate::rules::shape::Shape;
use crate::settings::Settings;
use std::panic::{catch_unwind, AssertUnwindSafe};

/// The answers that each entry point can give, in the order of `KINDS`. Each must occur. Cover and map
/// answer 0 where they refuse nothing.
const MUST_OCCUR: [&[usize]; 9] = [
    &[1, 2, 53],
    &[1, 2, 3, 4, 5, 7, 9, 10, 40],
    &[1, 2, 3, 4, 5, 8, 14, 15, 41, 42, 43, 44, 45, 46, 47, 48],
    &[1, 2, 3, 4, 5, 7, 11, 12, 13, 40],
    &[1, 2, 3, 4, 6, 49],
    &[1, 2, 3, 16, 50],
    &[1, 2, 3, 51, 52],
    &[0, 1, 2, 3, 18],
    &[0, 1, 2, 3, 19],
];

/// The runs so far: what was tried, and where the run stands.
struct Comparison {
    answers: Vec<Tally<usize>>,
    events: Tally<&'static str>,
    kinds: Vec<Kind>,
    tried: Vec<Tried>,
    /// How often each line of "valid state" was the only one that did not hold.
    sole_lines: Tally<usize>,
    levels: Tally<usize>,
    threads: Tally<usize>,
    calls: u64,
    /// Which threads' last step in the history was a merge.
    merged: [bool; 8],
    /// Where the run stands, for the report of a difference.
    step: u64,
    doing: &'static str,
}

/// Makes the runs and prints what was tried; an error says where the sides differ or what was missed.
pub fn run(settings: Settings) -> Result<(), String> {
    let mut comparison = Comparison::new();
    for run in settings.numbers() {
        let mut random = Random::of_run(settings.seed, run);
        // A rule that stops halfway is reported with its run and step, as a difference is.
        let outcome = catch_unwind(AssertUnwindSafe(|| comparison.history(&mut random)));
        let outcome = outcome.unwrap_or_else(|_| Err("the model stopped halfway\n".to_string()));
        outcome.map_err(|text| {
            let (seed, step, doing) = (settings.seed, comparison.step, comparison.doing);
            format!(
                "DIFFERENCE in seed {seed}, run {run}, step {step}, {doing}\n{text}\
                 alone again with MODEL_SEED={seed} MODEL_FIRST={run} MODEL_RUNS=1"
            )
        })?;
    }
    println!("{}", comparison.report());
    comparison.missed()
}

impl Comparison {
    fn new() -> Comparison {
        let kinds = damage::kinds();
        Comparison {
            answers: MUST_OCCUR.iter().map(|answers| Tally::of(answers)).collect(),
            events: Tally::of(EVENTS),
            tried: vec![Tried::default(); kinds.len()],
            kinds,
            sole_lines: Tally::of(&[1, 2, 3, 4, 5, 6, 7, 8]),
            levels: Tally::of(&[1, 2, 3, 4, 5]),
            threads: Tally::of(&[1, 2, 3, 4, 5, 6, 7, 8]),
            calls: 0,
            merged: [false; 8],
            step: 0,
            doing: "",
        }
    }

    /// One call on both sides, counted.
    fn call(&mut self, entry: &Entry, lent: &Lent) -> Result<After, String> {
        self.step += 1;
        self.calls += 1;
        let after = compared(entry, lent)?;
        self.answers[entry.kind()].note(after.answer[0]);
        for event in events(entry, lent, &after) {
            self.events.note(event);
        }
        Ok(after)
    }

    /// One run: a pool, its history, and damage on the way.
    fn history(&mut self, random: &mut Random) -> Result<(), String> {
        let shape = shapes::allowed(random);
        self.step = 0;
        self.merged = [false; 8];
        self.levels.note(shape.levels);
        self.threads.note(shape.threads);
        for event in of_shape(&shape) {
            self.events.note(event);
        }
        self.valid_states(random, &shape)?;
        let mut lent = self.beginning(random, &shape)?;
        let steps = match random.below(10) {
            0..=3 => random.between(5, 60),
            4..=8 => random.between(60, 400),
            _ => random.between(400, 2500),
        };
        let mut manners = Manners::some(random);
        for _ in 0..steps {
            if random.once_in(60) {
                manners = Manners::some(random);
            }
            lent = self.one_step(random, &manners, lent)?;
            if random.once_in(12) {
                let damaged = self.damage(random, &lent)?;
                if random.once_in(8) && check_tables(&damaged).is_ok() {
                    lent = damaged;
                }
            }
        }
        Ok(())
    }

    /// A few valid states: every entry point on each, damage to it, and a few steps from it.
    fn valid_states(&mut self, random: &mut Random, shape: &Shape) -> Result<(), String> {
        for _ in 0..random.below(4) {
            self.doing = "at a valid state";
            let lent = states::valid(random, shape);
            self.every_entry(random, &lent)?;
            self.damage(random, &lent)?;
            self.few_steps(random, lent)?;
        }
        Ok(())
    }

    /// A fresh pool built over arbitrary tables, at times with a late clock, or any valid state.
    fn beginning(&mut self, random: &mut Random, shape: &Shape) -> Result<Lent, String> {
        self.doing = "at the beginning";
        let mut lent = Lent {
            shape: *shape,
            record: Record { clock: random.number() as u32, running: random.number() as u32 },
            tables: Tables::zeros(shape),
        };
        damage::scribble(random, &mut lent);
        let after = self.call(&Entry::Build, &lent)?;
        (lent.record, lent.tables) = (after.record, after.tables);
        match random.below(10) {
            0 => lent.record.clock = u32::MAX - random.below(40) as u32,
            1 => lent.record.clock = u32::MAX - random.below(60_100) as u32,
            2..=4 => lent = states::valid(random, shape),
            _ => {}
        }
        Ok(lent)
    }

    /// The next call of a history, and the tables after it.
    fn one_step(&mut self, random: &mut Random, manners: &Manners, lent: Lent) -> Result<Lent, String> {
        self.doing = "in the history";
        let entry = next(random, &lent, manners);
        let after = self.call(&entry, &lent)?;
        self.note_merges(&entry, &after);
        Ok(Lent { shape: lent.shape, record: after.record, tables: after.tables })
    }

    /// Notes a merge that follows a merge of the same thread: one block given back, two levels up.
    fn note_merges(&mut self, entry: &Entry, after: &After) {
        let Entry::GoOn { thread: thread @ 0..=7 } = *entry else { return };
        let merges = after.answer[0] == MERGED;
        if merges && self.merged[thread] {
            self.events.note(SECOND_MERGE);
        }
        self.merged[thread] = merges;
    }

    /// Damages a copy of valid tables and tries every entry point on it, then a few more steps if it is
    /// still valid; the damaged tables.
    fn damage(&mut self, random: &mut Random, lent: &Lent) -> Result<Lent, String> {
        let mut damaged = lent.clone();
        let mut which = random.below(self.kinds.len());
        while !(self.kinds[which].edit)(random, &mut damaged) {
            which = random.below(self.kinds.len());
        }
        let kind = self.kinds[which];
        self.doing = kind.name;
        if !damage::agrees(kind.leaves, &damaged) {
            let text = shown(&Entry::Whole, &damaged);
            return Err(format!("the model's idea of valid is not that of this damage:\n{text}"));
        }
        let valid = check_tables(&damaged).is_ok();
        self.tried[which].times += 1;
        self.tried[which].valid += u64::from(valid);
        if let Some(line) = damage::sole_broken_line(&damaged) {
            self.sole_lines.note(line + 1);
        }
        self.every_entry(random, &damaged)?;
        if valid {
            self.few_steps(random, damaged.clone())?;
        } else if random.once_in(4) {
            let mut twice = damaged.clone();
            damage::once_more(random, &mut twice);
            self.every_entry(random, &twice)?;
        }
        Ok(damaged)
    }

    /// Every entry point, each from these same tables.
    fn every_entry(&mut self, random: &mut Random, lent: &Lent) -> Result<(), String> {
        for kind in 0..KINDS.len() {
            let entry = arguments::call(random, lent, kind);
            self.call(&entry, lent)?;
        }
        Ok(())
    }

    /// A few steps of a history from these valid tables.
    fn few_steps(&mut self, random: &mut Random, mut lent: Lent) -> Result<(), String> {
        let manners = Manners::some(random);
        for _ in 0..random.below(12) {
            let entry = next(random, &lent, &manners);
            let after = self.call(&entry, &lent)?;
            (lent.record, lent.tables) = (after.record, after.tables);
        }
        Ok(())
    }
}

/// What was tried, and what was missed.
impl Comparison {
    fn report(&self) -> String {
        let mut text = String::from("answers of each entry point (number×times)\n");
        for (name, answers) in KINDS.iter().zip(&self.answers) {
            text.push_str(&format!("  {name:<10} {}\n", answers.in_one_line()));
        }
        text.push_str(&format!("histories by levels   {}\n", self.levels.in_one_line()));
        text.push_str(&format!("histories by threads  {}\n", self.threads.in_one_line()));
        text.push_str(&format!("events\n{}", self.events.in_lines()));
        text.push_str("damage: times tried, times the tables were still valid, kind\n");
        for (kind, tried) in self.kinds.iter().zip(&self.tried) {
            text.push_str(&format!("{:>10} {:>8}  {}\n", tried.times, tried.valid, kind.name));
        }
        let lines = self.sole_lines.in_one_line();
        text.push_str(&format!("a line of \"valid state\" broken alone (line×times)  {lines}\n"));
        text.push_str(&format!("{} calls, library and model agree on all", self.calls));
        text
    }

    /// An error if something that must occur never did.
    fn missed(&self) -> Result<(), String> {
        let mut missed = Vec::new();
        for (name, answers) in KINDS.iter().zip(&self.answers) {
            missed.extend(answers.never().iter().map(|answer| format!("{name} never answered {answer}")));
        }
        missed.extend(self.events.never().iter().map(|event| format!("{event}: never")));
        missed.extend(self.sole_lines.never().iter().map(|line| format!("line {line} never broken alone")));
        missed.extend(self.levels.never().iter().map(|levels| format!("no history of {levels} levels")));
        missed.extend(self.threads.never().iter().map(|count| format!("no history of {count} threads")));
        let untried = self.kinds.iter().zip(&self.tried).filter(|(_, tried)| tried.times == 0);
        missed.extend(untried.map(|(kind, _)| format!("damage never tried: {}", kind.name)));
        if missed.is_empty() {
            return Ok(());
        }
        Err(format!("NOT ALL WAS TRIED (more runs: MODEL_RUNS)\n{}", missed.join("\n")))
    }
}
