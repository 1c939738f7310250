//! All pools side by side, each on tables of its own: every call is made by each, and replies and tables must be the same.

use crate::call::{Call, Pool, Reply};
use crate::shape::Shape;
use crate::tables::Tables;
use std::process;

pub struct Together<'a> {
    shape: Shape,
    pools: &'a [Box<dyn Pool>],
    tables: Vec<Tables>,
    /// How many calls were compared.
    pub compared: usize,
}

impl<'a> Together<'a> {
    /// Pools that begin on the same tables.
    pub fn new(shape: Shape, pools: &'a [Box<dyn Pool>], tables: &Tables) -> Together<'a> {
        Together { shape, pools, tables: vec![tables.clone(); pools.len()], compared: 0 }
    }

    /// The tables, which are the same for all.
    pub fn tables(&self) -> &Tables {
        &self.tables[0]
    }

    /// Makes a call by each pool. Where two differ, says so and ends the run: figures of different work are worth nothing.
    pub fn make(&mut self, call: Call) -> Reply {
        let before = self.tables[0].clone();
        let replies: Vec<Reply> =
            self.pools.iter().zip(&mut self.tables).map(|(pool, tables)| pool.make(call, self.shape, tables)).collect();
        for (n, pool) in self.pools.iter().enumerate().skip(1) {
            if replies[n] != replies[0] || self.tables[n] != self.tables[0] {
                self.differ(call, &before, n, &replies, pool.name());
            }
        }
        self.compared += 1;
        replies[0]
    }

    /// Says which pools differ, and on what.
    fn differ(&self, call: Call, before: &Tables, n: usize, replies: &[Reply], name: &str) -> ! {
        eprintln!("bench: {name} differs from {} on {call:?}, {:?}", self.pools[0].name(), self.shape);
        eprintln!(
            "    replies {:?} and {:?}, tables {}",
            replies[n],
            replies[0],
            if self.tables[n] == self.tables[0] { "the same" } else { "different" }
        );
        if self.tables[0].states.len() <= 20 {
            eprintln!("    before {before:?}\n    {name} {:?}\n    {} {:?}", self.tables[n], self.pools[0].name(), self.tables[0]);
        }
        process::exit(1);
    }
}
