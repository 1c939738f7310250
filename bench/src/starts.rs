//! From where each call is measured: tables on which a history made that call.

use crate::call::{Call, Pool};
use crate::churn::{Churn, Phase};
use crate::kind::Kind;
use crate::quietest::Quietest;
use crate::random::Random;
use crate::shape::Shape;
use crate::tables::Tables;
use crate::together::Together;

/// How many calls of the mixed phase are made, and how many starts are kept of each kind.
const MIXED_CALLS: usize = 8000;
pub const KEPT: usize = 4;

/// A call, the tables on which it is made, and its times by each pool.
pub struct Start {
    pub call: Call,
    pub tables: Tables,
    pub times: Quietest,
}

/// The starts of one kind, taken evenly from all calls of that kind.
pub struct Starts {
    pub kind: Kind,
    pub list: Vec<Start>,
    seen: usize,
}

impl Starts {
    /// Whether no call of this kind was made yet, though the shape has such calls.
    fn is_wanted(&self, shape: Shape) -> bool {
        let is_made = match self.kind {
            Kind::Build => false,
            Kind::Split | Kind::Merge => shape.levels > 1,
            _ => true,
        };
        is_made && self.list.is_empty()
    }

    /// Keeps this start or not, so that in the end each that was seen is kept with the same chance.
    fn offer(&mut self, random: &mut Random, call: Call, tables: &Tables) {
        self.seen += 1;
        let start = || Start { call, tables: tables.clone(), times: Quietest::default() };
        if self.list.len() < KEPT {
            self.list.push(start());
        } else if let Some(kept) = self.list.get_mut(random.below(self.seen)) {
            *kept = start();
        }
    }
}

/// Runs a history by all pools side by side, and answers the starts of each kind and the number of calls compared.
pub fn starts(shape: Shape, pools: &[Box<dyn Pool>]) -> (Vec<Starts>, usize) {
    let mut all: Vec<Starts> = Kind::ALL.iter().map(|&kind| Starts { kind, list: Vec::new(), seen: 0 }).collect();
    let mut random = Random::new(1);
    let mut together = Together::new(shape, pools, &Tables::zeros(shape));
    let mut churn = Churn::new(shape);
    together.make(Call::Build);
    let mut mixed = 0;
    while mixed < MIXED_CALLS || all.iter().any(|starts| starts.is_wanted(shape)) {
        let call = churn.next(together.tables());
        let before = together.tables().clone();
        let reply = together.make(call);
        churn.learn(call, reply);
        if churn.phase() == Phase::Mix {
            mixed += 1;
            if let Some(kind) = Kind::of(call, reply) {
                all[kind as usize].offer(&mut random, call, &before);
            }
        }
    }
    all[Kind::Build as usize].offer(&mut random, Call::Build, together.tables());
    (all, together.compared)
}
