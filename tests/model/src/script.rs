//! Document 01's "Script and listing": from a script's bytes to the listing's bytes.

use crate::rules::answers::{number_and_detail, Outcome, BAD_RECORD, SHAPE_NOT_ALLOWED};
use crate::rules::lent::{Lent, Record, Tables};
use crate::rules::shape::Shape;
use crate::rules::{calls, go_on, questions};

/// The tags of records.
pub const SHAPE_TAG: u8 = 1;
pub const ASK_TAG: u8 = 2;
pub const GO_ON_TAG: u8 = 3;
pub const GIVE_TAG: u8 = 4;
pub const SWITCH_TAG: u8 = 5;
pub const TICK_TAG: u8 = 6;
pub const WHOLE_TAG: u8 = 7;

/// The most bytes that a script may have.
pub const MOST_BYTES: usize = 65_536;

/// A record that was read whole.
#[derive(Clone, Copy, Debug, PartialEq, Eq)]
enum Command {
    Shape(Shape),
    Ask { thread: usize, size: usize, wait: i32 },
    GoOn { thread: usize },
    Give { thread: usize, id: usize },
    Switch { thread: usize },
    Tick,
    Whole,
}

/// The listing of a script.
pub fn listing(script: &[u8]) -> Vec<u8> {
    let mut lines = vec!["n tag answer detail".to_string()];
    if script.is_empty() {
        lines.push("0 0 17 0".to_string());
    } else if script.len() > MOST_BYTES {
        lines.push("0 0 17 65536".to_string());
    } else {
        run(script, &mut lines);
    }
    let mut bytes = Vec::new();
    for line in lines {
        bytes.extend_from_slice(line.as_bytes());
        bytes.push(b'\n');
    }
    bytes
}

/// Runs the records one after another, a line for each, until the script ends or the run stops.
fn run(script: &[u8], lines: &mut Vec<String>) {
    let mut at = 0;
    let mut number = 0;
    let mut pool: Option<Lent> = None;
    while at < script.len() {
        let tag = script[at];
        let Some((command, length)) = read(&script[at..], pool.is_none()) else {
            lines.push(format!("{number} {tag} {} {at}", BAD_RECORD.0));
            return;
        };
        let outcome = obey(command, &mut pool);
        let (answer, detail) = number_and_detail(outcome);
        lines.push(format!("{number} {tag} {answer} {detail}"));
        if outcome == Err(SHAPE_NOT_ALLOWED) {
            return;
        }
        at += length;
        number += 1;
    }
}

/// The record at the front of these bytes and its length in all, or none if it is bad: "other tags,
/// lengths, a cut record or a misplaced tag 1 (or another tag in the first record)".
fn read(bytes: &[u8], first: bool) -> Option<(Command, usize)> {
    let tag = bytes[0];
    let length = usize::from(u16::from_le_bytes([*bytes.get(1)?, *bytes.get(2)?]));
    let value = bytes.get(3..3 + length)?;
    if (tag == SHAPE_TAG) != first {
        return None;
    }
    let command = match (tag, length) {
        (SHAPE_TAG, 8) => Command::Shape(Shape {
            pool: value[0].into(),
            threads: value[1].into(),
            levels: value[2].into(),
            tops: value[3].into(),
            top_size: four(&value[4..]) as usize,
        }),
        (ASK_TAG, 9) => ask(value, four(&value[5..]) as i32),
        (ASK_TAG, 5) => ask(value, -1),
        (GO_ON_TAG, 1) => Command::GoOn { thread: value[0].into() },
        (GIVE_TAG, 5) => Command::Give { thread: value[0].into(), id: four(&value[1..]) as usize },
        (SWITCH_TAG, 1) => Command::Switch { thread: value[0].into() },
        (TICK_TAG, 0) => Command::Tick,
        (WHOLE_TAG, 0) => Command::Whole,
        _ => return None,
    };
    Some((command, 3 + length))
}

/// A number in four bytes, the lowest first.
fn four(bytes: &[u8]) -> u32 {
    u32::from_le_bytes([bytes[0], bytes[1], bytes[2], bytes[3]])
}

/// An ask, with the wait that was written or the one that stands for none.
fn ask(value: &[u8], wait: i32) -> Command {
    Command::Ask { thread: value[0].into(), size: four(&value[1..]) as usize, wait }
}

/// Makes the step that a record asks for. The first record is the shape; the others find a pool.
fn obey(command: Command, pool: &mut Option<Lent>) -> Outcome {
    if let Command::Shape(shape) = command {
        let mut built = empty_handed(shape);
        let outcome = calls::build(&mut built);
        *pool = Some(built);
        return outcome;
    }
    let lent = pool.as_mut().expect("the first record is the shape");
    match command {
        Command::Shape(_) => unreachable!("built above"),
        Command::Ask { thread, size, wait } => calls::ask(lent, thread, size, wait),
        Command::GoOn { thread } => go_on::go_on(lent, thread),
        Command::Give { thread, id } => calls::give_back(lent, thread, id),
        Command::Switch { thread } => calls::switch(lent, thread),
        Command::Tick => calls::tick(lent),
        Command::Whole => questions::whole(lent),
    }
}

/// What the program lends for a shape: tables of the right lengths, or none for a shape not allowed.
fn empty_handed(shape: Shape) -> Lent {
    let tables = if shape.allowed() {
        Tables::zeros(&shape)
    } else {
        Tables { states: vec![], owners: vec![], lists: vec![], calls: vec![], queue: vec![] }
    };
    Lent { shape, record: Record { clock: 0, running: 0 }, tables }
}
