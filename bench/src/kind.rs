//! What is measured: each of the nine calls, and go on by the step that it makes.

use crate::call::{Call, Reply};
use crate::numbers::answer;

#[derive(Clone, Copy, Debug, PartialEq, Eq)]
pub enum Kind {
    Build,
    Ask,
    Look,
    Take,
    Split,
    Grant,
    GiveBack,
    Merge,
    Settle,
    Switch,
    Tick,
    Whole,
    Cover,
    Map,
}

impl Kind {
    pub const ALL: [Kind; 14] = [
        Kind::Build,
        Kind::Ask,
        Kind::Look,
        Kind::Take,
        Kind::Split,
        Kind::Grant,
        Kind::GiveBack,
        Kind::Merge,
        Kind::Settle,
        Kind::Switch,
        Kind::Tick,
        Kind::Whole,
        Kind::Cover,
        Kind::Map,
    ];

    /// The kind of a call that made its step; none for a refusal, and for the answers "again" and "waiting".
    pub fn of(call: Call, reply: Reply) -> Option<Kind> {
        let kind = match (call, reply[0]) {
            (Call::Build, answer::BUILT) => Kind::Build,
            (Call::Ask { .. }, answer::OPENED) => Kind::Ask,
            (Call::GoOn { .. }, answer::FOUND) => Kind::Look,
            (Call::GoOn { .. }, answer::TAKEN) => Kind::Take,
            (Call::GoOn { .. }, answer::SPLIT) => Kind::Split,
            (Call::GoOn { .. }, answer::GRANTED) => Kind::Grant,
            (Call::GiveBack { .. }, answer::OPENED) => Kind::GiveBack,
            (Call::GoOn { .. }, answer::MERGED) => Kind::Merge,
            (Call::GoOn { .. }, answer::SETTLED) => Kind::Settle,
            (Call::Switch { .. }, answer::SWITCHED) => Kind::Switch,
            (Call::Tick, answer::TICKED) => Kind::Tick,
            (Call::Whole, answer::WHOLE | answer::NOT_WHOLE) => Kind::Whole,
            (Call::Cover { .. }, 0) => Kind::Cover,
            (Call::Map, 0) => Kind::Map,
            _ => return None,
        };
        Some(kind)
    }

    /// What it is called in the tables of figures.
    pub fn name(self) -> &'static str {
        match self {
            Kind::Build => "build",
            Kind::Ask => "ask",
            Kind::Look => "go on: look",
            Kind::Take => "go on: take",
            Kind::Split => "go on: split",
            Kind::Grant => "go on: grant",
            Kind::GiveBack => "give back",
            Kind::Merge => "go on: merge",
            Kind::Settle => "go on: settle",
            Kind::Switch => "switch",
            Kind::Tick => "tick",
            Kind::Whole => "whole",
            Kind::Cover => "cover",
            Kind::Map => "map",
        }
    }
}
