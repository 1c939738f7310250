//! The guard of a held block: given back, kept, refused, dropped.

use saltbalance::{Answer, Held, Id, Refusal};
use std::cell::Cell;
use std::panic;

#[test]
fn it_is_given_back_by_its_thread_and_id() {
    let called = Cell::new(None);
    let given = Held::new(3, Id(257)).give_back(|thread, id| {
        called.set(Some((thread, id)));
        Ok(Answer::Opened)
    });
    assert_eq!(given, Ok(Answer::Opened));
    assert_eq!(called.get(), Some((3, Id(257))));
}

#[test]
fn it_comes_back_where_the_call_is_refused() {
    let refused = Held::new(3, Id(257)).give_back(|_, _| Err(Refusal::NotRunning));
    let (refusal, held) = refused.unwrap_err();
    assert_eq!(refusal, Refusal::NotRunning);
    assert_eq!((held.thread(), held.keep()), (3, Id(257)));
}

#[test]
fn a_guard_that_is_dropped_is_seen_where_debug_assertions_are_on() {
    let dropped = panic::catch_unwind(|| drop(Held::new(3, Id(257))));
    assert_eq!(dropped.is_err(), cfg!(debug_assertions));
    if let Err(words) = dropped {
        let words = words.downcast_ref::<String>().unwrap();
        assert_eq!(words, "thread 3 still holds block 257: it was neither given back nor kept");
    }
}
