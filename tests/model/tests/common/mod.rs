//! A built pool with short ways to drive it, for the tests of the model.
#![allow(dead_code)]

use model::rules::answers::{number_and_detail, Outcome};
use model::rules::lent::*;
use model::rules::shape::Shape;
use model::rules::{calls, go_on};

/// A fresh pool of this shape.
pub fn built(pool: usize, threads: usize, levels: usize, tops: usize, top_size: usize) -> Lent {
    let shape = Shape { pool, threads, levels, tops, top_size };
    let record = Record { clock: 7, running: 3 };
    let mut lent = Lent { shape, record, tables: Tables::zeros(&shape) };
    assert_eq!(number_and_detail(calls::build(&mut lent)), (53, 0));
    lent
}

/// The number of an outcome.
pub fn number(outcome: Outcome) -> usize {
    number_and_detail(outcome).0
}

/// Makes the running thread's call go on until it ends or waits; the last answer and its detail.
pub fn to_the_end(lent: &mut Lent, thread: usize) -> (usize, usize) {
    loop {
        let answer = number_and_detail(go_on::go_on(lent, thread));
        let ended = lent.cells(thread).stage == CLOSED;
        if ended || lent.cells(thread).stage == WAITING {
            return answer;
        }
    }
}

/// Asks without waiting and goes on to the end: the id granted.
pub fn grant(lent: &mut Lent, thread: usize, size: usize) -> usize {
    assert_eq!(number(calls::switch(lent, thread)), 49);
    assert_eq!(number(calls::ask(lent, thread, size, 0)), 40);
    let (answer, id) = to_the_end(lent, thread);
    assert_eq!(answer, 45);
    id
}

/// Gives a block back and goes on until it is settled.
pub fn settle(lent: &mut Lent, thread: usize, id: usize) {
    assert_eq!(number(calls::switch(lent, thread)), 49);
    assert_eq!(number(calls::give_back(lent, thread, id)), 40);
    assert_eq!(to_the_end(lent, thread).0, 48);
}
