//! What is measured of the calls at one shape.

use crate::call::Pool;
use crate::kind::Kind;
use crate::measure;
use crate::shape::Shape;
use crate::spoilt::Spoilt;
use crate::starts::{self, Starts};

/// The times of one kind of call, in nanoseconds: one for each pool, the mean over its starts.
pub struct Row {
    pub kind: Kind,
    pub times: Vec<f64>,
}

/// The starts of each kind of call with their times, and how many calls were compared before that.
pub struct Figures {
    pub shape: Shape,
    all: Vec<Starts>,
    pub compared: usize,
    pub spoilt: Spoilt,
}

impl Figures {
    /// Compares the pools at a shape and at another one with as many blocks; nothing is measured yet.
    pub fn compare(shape: Shape, pools: &[Box<dyn Pool>]) -> Figures {
        let mut spoilt = Spoilt::default();
        let (beside, first) = starts::starts(shape.beside(), pools);
        spoilt.compare(shape.beside(), pools, &beside);
        let (all, second) = starts::starts(shape, pools);
        spoilt.compare(shape, pools, &all);
        Figures { shape, all, compared: first + second, spoilt }
    }

    /// Measures every call once more.
    pub fn measure(&mut self, pools: &[Box<dyn Pool>], rounds: usize) {
        for start in self.all.iter_mut().flat_map(|starts| &mut starts.list) {
            let times = measure::from_start(self.shape, pools, start, rounds);
            start.times.offer(times);
        }
    }

    /// The row of this kind, where the shape has such a call.
    pub fn row(&self, kind: Kind) -> Option<Row> {
        let list = &self.all[kind as usize].list;
        let pools = list.first()?.times.times().len();
        let mean = |pool: usize| list.iter().map(|start| start.times.times()[pool]).sum::<f64>() / list.len() as f64;
        Some(Row { kind, times: (0..pools).map(mean).collect() })
    }

    /// All rows.
    pub fn rows(&self) -> Vec<Row> {
        Kind::ALL.iter().filter_map(|&kind| self.row(kind)).collect()
    }
}
