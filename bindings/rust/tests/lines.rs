//! The paper's cases on either side of its lines, on a running pool.
#![cfg(feature = "alloc")]

mod common;

use common::{bring_home, take};
use saltbalance::{Answer, Id, Millis, Pool, Refusal, Shape, State};

#[test]
fn a_request_gets_the_deepest_level_that_fits() {
    let shape = Shape { pool: 1, threads: 1, levels: 3, tops: 1, top_size: 1024 };
    for (size, level) in [(0, 2), (64, 2), (65, 1), (256, 1), (257, 0), (1024, 0)] {
        let mut pool = Pool::build(shape).unwrap();
        let id = take(&mut pool, 0, size).unwrap();
        assert_eq!(id.level(), level, "size {size}");
        assert!(id.size(&shape) >= size);
    }
}

#[test]
fn free_bytes_apart_are_no_room() {
    let mut pool = Pool::build(Shape { pool: 1, threads: 1, levels: 2, tops: 1, top_size: 1024 }).unwrap();
    let quarters = [0, 1, 2].map(|_| take(&mut pool, 0, 256).unwrap());
    assert_eq!(quarters.map(Id::block), [0, 1, 2]);
    bring_home(&mut pool, 0, quarters[0]).unwrap();
    bring_home(&mut pool, 0, quarters[1]).unwrap();
    assert_eq!(pool.tables().lists[3..6], [3, 0, 1]);
    assert_eq!(take(&mut pool, 0, 257), Err(Refusal::NoRoom));
    assert_eq!(take(&mut pool, 0, 256).map(Id::block), Ok(3));
}

#[test]
fn a_found_call_keeps_the_pool_from_being_whole() {
    let mut pool = Pool::build(Shape { pool: 1, threads: 2, levels: 2, tops: 1, top_size: 64 }).unwrap();
    pool.switch(1).unwrap();
    pool.ask(1, 64, Millis::NONE).unwrap();
    assert_eq!(pool.go_on(1), Ok(Answer::Found { level: 0 }));
    assert!((0..64).all(|offset| pool.cover(offset).unwrap().state == State::Free));
    assert!(!pool.is_whole());
}

#[test]
fn a_taker_that_comes_late_looks_again() {
    let mut pool = Pool::build(Shape { pool: 1, threads: 2, levels: 2, tops: 1, top_size: 64 }).unwrap();
    pool.switch(0).unwrap();
    pool.ask(0, 64, Millis::FOREVER).unwrap();
    assert_eq!(pool.go_on(0), Ok(Answer::Found { level: 0 }));
    let other = take(&mut pool, 1, 64).unwrap();
    pool.switch(0).unwrap();
    assert_eq!(pool.go_on(0), Ok(Answer::Again));
    assert_eq!(pool.go_on(0), Ok(Answer::Waiting));

    pool.switch(1).unwrap();
    pool.give_back(1, other).unwrap();
    assert_eq!(pool.go_on(1), Ok(Answer::Settled { woken: 1 }));
    pool.switch(0).unwrap();
    assert_eq!(pool.go_on(0), Ok(Answer::Found { level: 0 }));
}

#[test]
fn the_map_lists_each_byte_once() {
    let shape = Shape { pool: 3, threads: 1, levels: 5, tops: 3, top_size: 4096 };
    let mut pool = Pool::build(shape).unwrap();
    for size in [16, 1024, 0, 200, 4096, 64] {
        take(&mut pool, 0, size).unwrap();
        let mut end = 0;
        for id in pool.map().unwrap() {
            assert_eq!(id.offset(&shape), end);
            assert_eq!(pool.cover(end).unwrap().id, id);
            end = id.range(&shape).end;
        }
        assert_eq!(end, shape.bytes());
    }
}
