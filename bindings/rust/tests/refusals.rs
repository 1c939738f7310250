//! Each refusal that an owned pool can meet, and what it leaves: nothing is altered, but no room and timed out close the asker's call.
#![cfg(feature = "alloc")]

mod common;

use common::{bring_home, take};
use saltbalance::{Answer, Id, Millis, Pool, Refusal, Shape};

const SHAPE: Shape = Shape { pool: 1, threads: 3, levels: 3, tops: 1, top_size: 1024 };

/// A pool in which thread 0 runs.
fn pool() -> Pool {
    let mut pool = Pool::build(SHAPE).unwrap();
    pool.switch(0).unwrap();
    pool
}

/// The call is refused so, and leaves the pool as it was.
fn refuses(pool: &mut Pool, call: impl FnOnce(&mut Pool) -> Result<Answer, Refusal>, refusal: Refusal) {
    let before = pool.clone();
    assert_eq!(call(pool), Err(refusal));
    assert_eq!(*pool, before, "{refusal} alters nothing");
}

#[test]
fn shapes_outside_the_limits() {
    let wrong = [
        Shape { pool: 256, ..SHAPE },
        Shape { threads: 0, ..SHAPE },
        Shape { threads: 9, ..SHAPE },
        Shape { levels: 0, ..SHAPE },
        Shape { levels: 6, ..SHAPE },
        Shape { tops: 0, ..SHAPE },
        Shape { tops: 17, ..SHAPE },
        Shape { top_size: 0, ..SHAPE },
        Shape { top_size: 32, ..SHAPE },
        Shape { top_size: 65_536 + 64, ..SHAPE },
        Shape { pool: usize::MAX, threads: usize::MAX, levels: usize::MAX, tops: usize::MAX, top_size: usize::MAX },
    ];
    for shape in wrong {
        assert!(!shape.allowed(), "{shape:?}");
        assert_eq!(Pool::build(shape), Err(Refusal::ShapeNotAllowed), "{shape:?}");
    }
    assert!(Shape { pool: 255, threads: 8, levels: 5, tops: 16, top_size: 65_536 }.allowed());
}

#[test]
fn threads() {
    let mut pool = pool();
    let held = take(&mut pool, 0, 1024).unwrap();
    for thread in [3, usize::MAX] {
        refuses(&mut pool, |pool| pool.ask(thread, 16, Millis::NONE), Refusal::NoThread);
        refuses(&mut pool, |pool| pool.go_on(thread), Refusal::NoThread);
        refuses(&mut pool, |pool| pool.give_back(thread, held), Refusal::NoThread);
        refuses(&mut pool, |pool| pool.switch(thread), Refusal::NoThread);
    }
    refuses(&mut pool, |pool| pool.ask(1, 16, Millis::NONE), Refusal::NotRunning);
    refuses(&mut pool, |pool| pool.go_on(1), Refusal::NotRunning);
    refuses(&mut pool, |pool| pool.give_back(1, held), Refusal::NotRunning);

    pool.switch(1).unwrap();
    pool.ask(1, 16, Millis::FOREVER).unwrap();
    assert_eq!(pool.go_on(1), Ok(Answer::Waiting));
    assert_eq!(pool.device().thread(), None);
    refuses(&mut pool, |pool| pool.switch(1), Refusal::IsBlocked);
}

#[test]
fn asks() {
    let mut pool = pool();
    refuses(&mut pool, |pool| pool.go_on(0), Refusal::NoCall);
    refuses(&mut pool, |pool| pool.ask(0, 1025, Millis::NONE), Refusal::SizeAboveTop);
    refuses(&mut pool, |pool| pool.ask(0, usize::MAX, Millis::NONE), Refusal::SizeAboveTop);
    for wait in [-2, 600_001, i32::MIN, i32::MAX] {
        refuses(&mut pool, |pool| pool.ask(0, 1024, Millis(wait)), Refusal::WaitOutside);
    }
    assert_eq!(pool.ask(0, 1024, Millis::LONGEST), Ok(Answer::Opened));
    refuses(&mut pool, |pool| pool.ask(0, 1024, Millis::NONE), Refusal::CallOpen);
    refuses(&mut pool, |pool| pool.give_back(0, Id(1)), Refusal::CallOpen);
}

#[test]
fn blocks_given_back() {
    let mut pool = pool();
    let held = take(&mut pool, 0, 64).unwrap();
    assert_eq!(held, Id(1 + 2 * 256));
    for outside in [Id(0), Id(2), Id(1 + 3 * 256), Id(1 + 4096), Id(1 + 2 * 256 + 16 * 4096), Id(u32::MAX)] {
        refuses(&mut pool, |pool| pool.give_back(0, outside), Refusal::IdOutside);
    }
    let (divided, free, absent) = (Id(1), Id(1 + 2 * 256 + 4096), Id(1 + 2 * 256 + 4 * 4096));
    for id in [divided, free, absent] {
        refuses(&mut pool, |pool| pool.give_back(0, id), Refusal::NotAllocated);
    }
    pool.switch(1).unwrap();
    refuses(&mut pool, |pool| pool.give_back(1, held), Refusal::NotOwner);

    bring_home(&mut pool, 0, held).unwrap();
    refuses(&mut pool, |pool| pool.give_back(0, held), Refusal::NotAllocated);
    assert!(pool.is_whole());
}

#[test]
fn no_room_and_timed_out_close_the_call() {
    let mut pool = pool();
    take(&mut pool, 0, 1024).unwrap();
    let full = pool.clone();
    pool.ask(0, 0, Millis::NONE).unwrap();
    assert_eq!(pool.go_on(0), Err(Refusal::NoRoom));
    assert_eq!(pool, full, "the call is closed and nothing else is altered");

    pool.ask(0, 0, Millis(1)).unwrap();
    assert_eq!(pool.go_on(0), Ok(Answer::Waiting));
    assert_eq!(pool.tick(), Ok(Answer::Ticked { woken: 1 }));
    pool.switch(0).unwrap();
    assert_eq!(pool.go_on(0), Err(Refusal::TimedOut));
    assert_eq!(pool.tables(), full.tables());
}

#[test]
fn offsets() {
    let pool = pool();
    assert!(pool.cover(1023).is_ok());
    assert_eq!(pool.cover(1024), Err(Refusal::OffsetOutside));
    assert_eq!(pool.cover(usize::MAX), Err(Refusal::OffsetOutside));
}
