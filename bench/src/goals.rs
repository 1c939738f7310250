//! The three goals, and how far what was measured lies from them.

use crate::figures::Figures;
use crate::kind::Kind;
use crate::program::Timed;
use crate::words::many;

/// A checked call at the largest shape takes at most so many times the time of plain C.
pub const CALL: f64 = 1.2;

/// From one shape to the next, time grows at most so many times as the number of blocks does: growth that is not linear would be at
/// least twice that.
pub const GROWTH: f64 = 1.25;

/// A record of a script takes at most so many times the time of the plain C runner.
pub const RECORD: f64 = 1.5;

/// A measured ratio, of what it is, and the goal for it.
pub struct Measured {
    pub what: String,
    pub ratio: f64,
    pub goal: f64,
}

impl Measured {
    /// Whether the goal is met, to the second digit behind the point, which is what is printed.
    pub fn met(&self) -> bool {
        (self.ratio * 100.0).round() <= self.goal * 100.0
    }
}

/// The ratio to plain C of each checked call at the largest shape.
pub fn calls(all: &[Figures]) -> Vec<Measured> {
    let largest = all.last().expect("there are five shapes");
    let checked = largest.rows().into_iter().filter(|row| row.kind != Kind::Build);
    checked.map(|row| Measured { what: row.kind.name().to_string(), ratio: row.times[0] / row.times[1], goal: CALL }).collect()
}

/// For each kind the steepest growth from one shape to the next, beside that of the number of blocks.
pub fn growth(all: &[Figures]) -> Vec<Measured> {
    let steepest = |kind: Kind| {
        let pairs = all.windows(2).filter_map(|pair| Some((pair[0].row(kind)?, pair[1].row(kind)?, &pair[0], &pair[1])));
        let grown = pairs.map(|(small, large, from, to)| {
            let blocks = to.shape.blocks() as f64 / from.shape.blocks() as f64;
            large.times[0] / small.times[0] / blocks
        });
        grown.fold(0.0, f64::max)
    };
    Kind::ALL.iter().map(|&kind| Measured { what: kind.name().to_string(), ratio: steepest(kind), goal: GROWTH }).collect()
}

/// The ratio to the plain C runner of each script, by a time for a record.
pub fn records(all: &[Timed], time: fn(&Timed, usize) -> f64) -> Vec<Measured> {
    let what = |timed: &Timed| format!("{} on {}", timed.script.name, many(timed.script.shape.blocks(), "block"));
    all.iter().map(|timed| Measured { what: what(timed), ratio: time(timed, 0) / time(timed, 1), goal: RECORD }).collect()
}
