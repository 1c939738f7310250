//! Document 01's own cases: "On either side of the lines", and what is said beside them.

mod common;

use common::{built, grant, number, settle, to_the_end};
use model::rules::answers::number_and_detail;
use model::rules::lent::*;
use model::rules::shape::Shape;
use model::rules::{calls, go_on, questions, valid};

fn shape(levels: usize, top_size: usize) -> Shape {
    Shape { pool: 1, threads: 2, levels, tops: 1, top_size }
}

/// The shape of P3 to P6: sizes 1,024, 256, 64.
fn three_sizes() -> Shape {
    shape(3, 1024)
}

#[test]
fn p1_three_levels_of_64() {
    let three = shape(3, 64);
    assert!(three.allowed());
    assert_eq!([three.size(0), three.size(1), three.size(2)], [64, 16, 4]);
}

#[test]
fn p2_four_levels_of_64_are_not_allowed() {
    assert!(!shape(4, 64).allowed());
    let mut lent = built(1, 2, 3, 1, 64);
    lent.shape.levels = 4;
    assert_eq!(number(calls::build(&mut lent)), 1);
}

#[test]
fn p3_to_p5_the_level_for_a_request() {
    let sizes = three_sizes();
    assert_eq!([sizes.target(0), sizes.target(64)], [Some(2), Some(2)]);
    assert_eq!(sizes.target(65), Some(1));
    assert_eq!([sizes.target(257), sizes.target(1024)], [Some(0), Some(0)]);
}

#[test]
fn a_size_above_the_top_is_refused() {
    let mut lent = built(1, 2, 3, 1, 1024);
    calls::switch(&mut lent, 0).unwrap();
    let before = lent.clone();
    assert_eq!(number(calls::ask(&mut lent, 0, 1025, 0)), 9);
    assert_eq!(lent, before);
    assert_eq!(number(calls::ask(&mut lent, 0, 1024, 0)), 40);
}

#[test]
fn p6_an_id_and_its_offset() {
    assert_eq!(three_sizes().id(2, 5), 20_993);
    assert_eq!(three_sizes().named(20_993), Some((2, 5)));
    assert_eq!(three_sizes().offset(2, 5), 320);
}

#[test]
fn p7_milliseconds_to_ticks() {
    assert_eq!([1, 10, 11, 600_000].map(calls::ticks), [1, 1, 2, 60_000]);
}

#[test]
fn waits_on_either_side_of_the_range() {
    for (wait, answer) in [(600_001, 10), (-2, 10), (i32::MIN, 10), (-1, 40), (0, 40), (600_000, 40)] {
        let mut lent = built(1, 2, 3, 1, 1024);
        calls::switch(&mut lent, 0).unwrap();
        assert_eq!(number(calls::ask(&mut lent, 0, 64, wait)), answer, "wait {wait}");
    }
}

/// P8's pool: quarters 0, 1, 2 granted, 0 then 1 given back.
fn scattered() -> Lent {
    let mut lent = built(1, 2, 2, 1, 1024);
    let ids: Vec<usize> = (0..3).map(|_| grant(&mut lent, 0, 256)).collect();
    assert_eq!(ids, [0, 1, 2].map(|quarter| lent.shape.id(1, quarter)));
    settle(&mut lent, 0, ids[0]);
    settle(&mut lent, 0, ids[1]);
    lent
}

#[test]
fn p8_three_free_quarters_are_no_room_for_257() {
    let mut lent = scattered();
    assert_eq!(lent.list(1), [3, 0, 1]);
    calls::ask(&mut lent, 0, 257, 0).unwrap();
    assert_eq!(number(go_on::go_on(&mut lent, 0)), 14);
    assert_eq!(lent, scattered());
}

#[test]
fn p9_256_gets_quarter_3() {
    let mut lent = scattered();
    let granted = grant(&mut lent, 0, 256);
    assert_eq!(granted, lent.shape.id(1, 3));
}

/// A pool whose one block is held by thread 1, and thread 0 has asked with a deadline of 9.
fn deadline_nine(clock: u32, room: bool) -> Lent {
    let mut lent = built(1, 2, 1, 1, 64);
    let held = grant(&mut lent, 1, 64);
    lent.record.clock = 4;
    calls::switch(&mut lent, 0).unwrap();
    calls::ask(&mut lent, 0, 64, 41).unwrap();
    assert_eq!(lent.cells(0).deadline, 9);
    lent.record.clock = clock;
    if room {
        settle(&mut lent, 1, held);
        calls::switch(&mut lent, 0).unwrap();
    }
    lent
}

#[test]
fn p10_at_the_deadline_and_past_it() {
    for (clock, room, answer) in
        [(9, false, 15), (10, true, 15), (10, false, 15), (9, true, 41), (8, false, 46)]
    {
        let mut lent = deadline_nine(clock, room);
        assert_eq!(number(go_on::go_on(&mut lent, 0)), answer, "clock {clock}, room {room}");
    }
}

#[test]
fn p11_a_found_call_is_not_whole() {
    let mut lent = built(1, 2, 2, 1, 64);
    assert_eq!(number(questions::whole(&lent)), 51);
    calls::switch(&mut lent, 0).unwrap();
    calls::ask(&mut lent, 0, 16, 0).unwrap();
    assert_eq!(number(questions::whole(&lent)), 52);
    assert_eq!(number(go_on::go_on(&mut lent, 0)), 41);
    assert_eq!(number(questions::whole(&lent)), 52);
}

#[test]
fn p12_four_free_buddies_are_no_valid_state() {
    let mut lent = scattered();
    settle_by_hand(&mut lent, 2);
    assert_eq!(lent.list(1), [3, 0, 1, 2]);
    assert!(!valid::valid(&lent));
    assert_eq!(valid::lines(&lent), [true, true, false, true, true, true, true, true]);
    assert_eq!(number(questions::whole(&lent)), 3);
}

/// Writes a quarter FREE and into its list without the rules' merge.
fn settle_by_hand(lent: &mut Lent, quarter: usize) {
    lent.set_state(1, quarter, FREE);
    lent.set_owner(1, quarter, 0);
    let mut list = lent.list(1);
    list.push(quarter);
    lent.set_list(1, &list);
}

#[test]
fn a_settled_block_given_again_is_refused() {
    let mut lent = built(1, 2, 2, 1, 1024);
    let (first, second) = (grant(&mut lent, 0, 256), grant(&mut lent, 0, 256));
    settle(&mut lent, 0, first);
    assert_eq!(number(calls::give_back(&mut lent, 0, first)), 12);
    settle(&mut lent, 0, second);
    // Merged into the top block: NOEXIST.
    assert_eq!(number(calls::give_back(&mut lent, 0, second)), 12);
}

#[test]
fn top_blocks_never_merge() {
    let mut lent = built(1, 2, 2, 4, 1024);
    let ids: Vec<usize> = (0..4).map(|_| grant(&mut lent, 0, 1024)).collect();
    for id in ids {
        settle(&mut lent, 0, id);
    }
    assert_eq!(lent.list(0), [0, 1, 2, 3]);
    assert_eq!(number(questions::whole(&lent)), 51);
}

#[test]
fn a_tick_wakes_at_the_deadline_and_not_later() {
    let mut lent = deadline_nine(7, false);
    assert_eq!(to_the_end(&mut lent, 0), (46, 0));
    assert_eq!(number_and_detail(calls::tick(&mut lent)), (50, 0));
    assert_eq!(number(calls::switch(&mut lent, 0)), 6);
    assert_eq!(number_and_detail(calls::tick(&mut lent)), (50, 1));
    assert_eq!(lent.record.clock, 9);
    calls::switch(&mut lent, 0).unwrap();
    assert_eq!(number(go_on::go_on(&mut lent, 0)), 15);
}

#[test]
fn the_clock_ends_and_a_deadline_may_lie_behind_it() {
    let mut lent = deadline_nine(4, false);
    lent.record.clock = u32::MAX - 1;
    lent.set_cells(0, Cells::default());
    calls::ask(&mut lent, 0, 64, 600_000).unwrap();
    assert_eq!(lent.cells(0).deadline, u64::from(u32::MAX) - 1 + 60_000);
    assert_eq!(to_the_end(&mut lent, 0), (46, 0));
    assert_eq!(number_and_detail(calls::tick(&mut lent)), (50, 0));
    let before = lent.clone();
    assert_eq!(number(calls::tick(&mut lent)), 16);
    assert_eq!(lent, before);
    let held = lent.shape.id(0, 0);
    calls::switch(&mut lent, 1).unwrap();
    calls::give_back(&mut lent, 1, held).unwrap();
    assert_eq!(number_and_detail(go_on::go_on(&mut lent, 1)), (48, 1));
}

#[test]
fn map_and_cover_tell_the_undivided_blocks() {
    let lent = scattered();
    let mut row = [9; 6];
    assert_eq!(questions::map(&lent, &mut row[..3]).unwrap_err().0, 19);
    assert_eq!(row, [9; 6]);
    assert_eq!(questions::map(&lent, &mut row), Ok(4));
    assert_eq!(row, [257, 257 + 4096, 257 + 2 * 4096, 257 + 3 * 4096, 9, 9]);
    let over = questions::cover(&lent, 767).unwrap();
    assert_eq!((over.id, over.state), (257 + 2 * 4096, ALLOCATED));
    assert_eq!(questions::cover(&lent, 1024).unwrap_err().0, 18);
}
