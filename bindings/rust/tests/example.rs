//! The paper's example script, step by step: shape, switch 0, ask 0 for 16 with wait 0, go on four times, whole, give 257, go on twice,
//! whole.
#![cfg(feature = "alloc")]

use saltbalance::{Answer, Id, Millis, Pool, Shape};

#[test]
fn the_papers_example() {
    let shape = Shape { pool: 1, threads: 2, levels: 2, tops: 1, top_size: 64 };
    let mut pool = Pool::build(shape).unwrap();
    assert_eq!(pool.switch(0), Ok(Answer::Switched));
    assert_eq!(pool.ask(0, 16, Millis::NONE), Ok(Answer::Opened));
    assert_eq!(pool.go_on(0), Ok(Answer::Found { level: 0 }));
    assert_eq!(pool.go_on(0), Ok(Answer::Taken { id: Id(1) }));
    assert_eq!(pool.go_on(0), Ok(Answer::Split { id: Id(257) }));
    assert_eq!(pool.go_on(0), Ok(Answer::Granted { id: Id(257) }));
    assert_eq!(pool.whole(), Ok(Answer::NotWhole));
    assert_eq!(pool.give_back(0, Id(257)), Ok(Answer::Opened));
    assert_eq!(pool.go_on(0), Ok(Answer::Merged { id: Id(1) }));
    assert_eq!(pool.go_on(0), Ok(Answer::Settled { woken: 0 }));
    assert_eq!(pool.whole(), Ok(Answer::Whole));

    // But for who runs, the pool is as fresh as it was.
    let mut fresh = Pool::build(shape).unwrap();
    fresh.switch(0).unwrap();
    assert_eq!(pool, fresh);
}

#[test]
fn the_papers_numbers_and_details() {
    let mut pool = Pool::build(Shape { pool: 1, threads: 2, levels: 2, tops: 1, top_size: 64 }).unwrap();
    let answers = [
        pool.switch(0),
        pool.ask(0, 16, Millis::NONE),
        pool.go_on(0),
        pool.go_on(0),
        pool.go_on(0),
        pool.go_on(0),
        pool.whole(),
        pool.give_back(0, Id(257)),
        pool.go_on(0),
        pool.go_on(0),
        pool.whole(),
    ];
    let listing = answers.map(|answer| answer.map(|answer| (answer.number(), answer.detail())).unwrap());
    let paper = [(49, 0), (40, 0), (41, 0), (43, 1), (44, 257), (45, 257), (52, 0), (40, 0), (47, 1), (48, 0), (51, 0)];
    assert_eq!(listing, paper);
}
