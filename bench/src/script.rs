//! Scripts near the longest that is run, of three kinds.

use crate::call::{Call, Pool, Reply};
use crate::churn::Churn;
use crate::linked::PlainC;
use crate::numbers::{answer, tag};
use crate::shape::Shape;
use crate::tables::Tables;

/// The most bytes of a script that is run.
const MOST_BYTES: usize = 65_536;

/// A script with the places behind its records; the pool beside it makes each step, so that ids are known.
pub struct Script {
    pub name: &'static str,
    pub shape: Shape,
    bytes: Vec<u8>,
    ends: Vec<usize>,
    tables: Tables,
}

impl Script {
    /// A script that so far holds its shape.
    fn new(name: &'static str, shape: Shape) -> Script {
        let mut script = Script { name, shape, bytes: vec![], ends: vec![], tables: Tables::zeros(shape) };
        PlainC.make(Call::Build, shape, &mut script.tables);
        let numbers = [shape.pool, shape.threads, shape.levels, shape.tops].map(|number| number as u8);
        script.put(tag::SHAPE, &[numbers, four(shape.top_size)].concat());
        script
    }

    /// How many records it has.
    pub fn records(&self) -> usize {
        self.ends.len()
    }

    /// The bytes of its first records.
    pub fn first(&self, records: usize) -> &[u8] {
        &self.bytes[..if records == 0 { 0 } else { self.ends[records - 1] }]
    }

    /// Adds a record.
    fn put(&mut self, tag: u8, value: &[u8]) {
        self.bytes.extend([tag, value.len() as u8, 0]);
        self.bytes.extend(value);
        self.ends.push(self.bytes.len());
    }

    /// Adds the record of a call and makes the call. A call that has no record is left out. None where the script is full.
    fn step(&mut self, call: Call) -> Option<Reply> {
        let one = |thread: usize| vec![thread as u8];
        let (tag, value) = match call {
            Call::Ask { thread, size, wait } => (tag::ASK, [one(thread), four(size).to_vec(), wait.to_le_bytes().to_vec()].concat()),
            Call::GoOn { thread } => (tag::GO_ON, one(thread)),
            Call::GiveBack { thread, id } => (tag::GIVE, [one(thread), four(id).to_vec()].concat()),
            Call::Switch { thread } => (tag::SWITCH, one(thread)),
            Call::Tick => (tag::TICK, vec![]),
            Call::Whole => (tag::WHOLE, vec![]),
            Call::Build | Call::Cover { .. } | Call::Map => return Some([0; 3]),
        };
        if self.bytes.len() + 3 + value.len() > MOST_BYTES {
            return None;
        }
        self.put(tag, &value);
        Some(PlainC.make(call, self.shape, &mut self.tables))
    }

    /// Goes on with thread 0's call until it answers this number; answers the detail.
    fn go_on_until(&mut self, number: usize) -> Option<usize> {
        loop {
            let reply = self.step(Call::GoOn { thread: 0 })?;
            if reply[0] == number {
                return Some(reply[1]);
            }
        }
    }

    /// A smallest block is taken and given back.
    fn cycle(&mut self) -> Option<()> {
        let size = self.shape.size(self.shape.levels - 1);
        self.step(Call::Ask { thread: 0, size, wait: 0 })?;
        let id = self.go_on_until(answer::GRANTED)?;
        self.step(Call::GiveBack { thread: 0, id })?;
        self.go_on_until(answer::SETTLED)?;
        Some(())
    }
}

/// A number in four bytes.
fn four(number: usize) -> [u8; 4] {
    (number as u32).to_le_bytes()
}

/// Ticks and wholes in turn.
fn ticks(shape: Shape) -> Script {
    let mut script = Script::new("ticks and wholes", shape);
    while script.step(Call::Tick).and_then(|_| script.step(Call::Whole)).is_some() {}
    script
}

/// A smallest block is taken and given back, again and again.
fn cycles(shape: Shape) -> Script {
    let mut script = Script::new("ask, go on, give back", shape);
    script.step(Call::Switch { thread: 0 });
    while script.cycle().is_some() {}
    script
}

/// Blocks of all sizes come and go, by all threads.
fn mixed(shape: Shape) -> Script {
    let mut script = Script::new("a mixed history", shape);
    let mut churn = Churn::mixed(shape);
    loop {
        let call = churn.next(&script.tables);
        match script.step(call) {
            Some(reply) => churn.learn(call, reply),
            None => return script,
        }
    }
}

/// The three kinds of script for a shape.
pub fn scripts(shape: Shape) -> [Script; 3] {
    [ticks(shape), cycles(shape), mixed(shape)]
}
