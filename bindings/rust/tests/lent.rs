//! The lent form on tables of any lengths and contents.

mod common;

use common::Lent;
use saltbalance::{Answer, Device, Id, Lengths, Millis, Refusal, Shape};

const SHAPE: Shape = Shape { pool: 1, threads: 2, levels: 2, tops: 1, top_size: 64 };

/// Every shape's numbers of levels, top blocks and threads.
fn shapes() -> impl Iterator<Item = Shape> {
    let sizes = (1..=5).flat_map(|levels| (1..=16).map(move |tops| (levels, tops)));
    sizes.flat_map(|(levels, tops)| (1..=8).map(move |threads| Shape { pool: 0, threads, levels, tops, top_size: 1024 }))
}

/// The lengths with one of them longer or shorter by one.
fn beside(right: Lengths) -> Vec<Lengths> {
    vec![
        Lengths { states: right.states + 1, ..right },
        Lengths { states: right.states - 1, ..right },
        Lengths { owners: right.owners + 1, ..right },
        Lengths { owners: right.owners - 1, ..right },
        Lengths { lists: right.lists + 1, ..right },
        Lengths { lists: right.lists - 1, ..right },
        Lengths { calls: right.calls + 1, ..right },
        Lengths { calls: right.calls - 1, ..right },
        Lengths { queue: right.queue + 1, ..right },
        Lengths { queue: right.queue - 1, ..right },
    ]
}

#[test]
fn exactly_the_stated_lengths_are_built() {
    for shape in shapes() {
        let right = shape.lengths().unwrap();
        let mut lent = Lent::zeros(right);
        assert_eq!(lent.tables(|device, mut tables| tables.build(device, shape)), Ok(Answer::Built), "{shape:?}");
        for wrong in beside(right) {
            let mut lent = Lent::zeros(wrong);
            let before = lent.clone();
            assert_eq!(lent.tables(|device, mut tables| tables.build(device, shape)), Err(Refusal::WrongLength));
            assert_eq!(lent, before);
        }
    }
}

#[test]
fn every_call_refuses_wrong_lengths() {
    let right = SHAPE.lengths().unwrap();
    for wrong in beside(right) {
        let mut lent = Lent::zeros(wrong);
        let before = lent.clone();
        assert_eq!(lent.refusals(SHAPE), [Some(Refusal::WrongLength); 8]);
        assert_eq!(lent, before);
    }
}

#[test]
fn empty_tables_and_an_empty_row() {
    let mut nothing = Lent::zeros(Lengths { states: 0, owners: 0, lists: 0, calls: 0, queue: 0 });
    assert_eq!(nothing.tables(|device, mut tables| tables.build(device, SHAPE)), Err(Refusal::WrongLength));
    assert_eq!(nothing.refusals(SHAPE), [Some(Refusal::WrongLength); 8]);
    let odd = Shape { top_size: 63, ..SHAPE };
    assert_eq!(nothing.refusals(odd), [Some(Refusal::ShapeNotAllowed); 8]);

    let mut lent = Lent::fresh(SHAPE);
    assert_eq!(lent.tables(|device, tables| tables.map(*device, SHAPE, &mut [])), Err(Refusal::RowTooShort));
}

#[test]
fn damaged_tables_are_refused_and_left() {
    let damages: [fn(&mut Lent); 9] = [
        |lent| lent.states[0] = 6,
        |lent| lent.states[1] = 1,
        |lent| lent.owners[0] = 1,
        |lent| lent.lists[0] = u16::MAX,
        |lent| lent.lists[6] = 1,
        |lent| lent.calls[0] = u64::MAX,
        |lent| lent.calls[11] = 1,
        |lent| lent.queue[0] = 255,
        |lent| lent.device = Device { clock: 0, running: 3 },
    ];
    for (number, damage) in damages.into_iter().enumerate() {
        let mut lent = Lent::fresh(SHAPE);
        damage(&mut lent);
        let before = lent.clone();
        assert_eq!(lent.refusals(SHAPE), [Some(Refusal::NotValid); 8], "damage {number}");
        assert_eq!(lent, before);
        assert_eq!(lent.tables(|device, mut tables| tables.build(device, SHAPE)), Ok(Answer::Built), "build takes any contents");
    }
}

#[test]
fn four_free_buddies_are_no_valid_state() {
    let mut lent = Lent::fresh(SHAPE);
    lent.states = vec![2, 1, 1, 1, 1];
    lent.lists = vec![0, 4, 0, 0, 1, 2, 3];
    assert_eq!(lent.refusals(SHAPE), [Some(Refusal::NotValid); 8]);
    lent.states[1] = 0;
    lent.owners[1] = 2;
    lent.lists = vec![0, 3, 0, 1, 2, 3, 0];
    assert_eq!(lent.tables(|device, tables| tables.whole(*device, SHAPE)), Ok(Answer::NotWhole), "one of them held: valid");
}

#[test]
fn the_clock_ends() {
    let mut lent = Lent::fresh(SHAPE);
    lent.device.clock = u32::MAX - 1;
    assert_eq!(lent.tables(|device, mut tables| tables.tick(device, SHAPE)), Ok(Answer::Ticked { woken: 0 }));
    let before = lent.clone();
    assert_eq!(lent.tables(|device, mut tables| tables.tick(device, SHAPE)), Err(Refusal::ClockAtEnd));
    assert_eq!(lent, before);
}

#[test]
fn a_row_keeps_its_further_places() {
    let mut lent = Lent::fresh(SHAPE);
    lent.tables(|device, mut tables| {
        tables.ask(*device, SHAPE, 0, 16, Millis::NONE).unwrap();
        while !matches!(tables.go_on(device, SHAPE, 0).unwrap(), Answer::Granted { .. }) {}
        let mut short = [Id(9); 3];
        assert_eq!(tables.map(*device, SHAPE, &mut short), Err(Refusal::RowTooShort));
        assert_eq!(short, [Id(9); 3]);
        let mut long = [Id(9); 6];
        assert_eq!(tables.map(*device, SHAPE, &mut long), Ok(4));
        assert_eq!(long, [Id(257), Id(4353), Id(8449), Id(12545), Id(9), Id(9)]);
    });
}
