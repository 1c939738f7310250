//! What the papers say of every history, tried on random ones: the ten moves, valid tables throughout,
//! demand 3, and that each kind of damage leaves what it says.

use model::damage;
use model::entry::{by_model, Entry};
use model::generate::history::{next, Manners};
use model::generate::{shapes, states};
use model::random::Random;
use model::rules::answers::number_and_detail;
use model::rules::lent::*;
use model::rules::{calls, go_on, questions, valid};
use std::collections::BTreeSet;

/// The moves of document 01.
const MOVES: [(u8, u8); 10] =
    [(1, 5), (1, 3), (5, 2), (5, 0), (0, 4), (4, 1), (4, 3), (3, 5), (3, 1), (2, 4)];

/// Runs random histories and shows each step but a build: the tables before and after it.
fn each_step(runs: u64, mut show: impl FnMut(&Lent, &Entry, &Lent)) {
    for run in 0..runs {
        let mut random = Random::of_run(1, run);
        let shape = shapes::allowed(&mut random);
        let mut lent = states::valid(&mut random, &shape);
        let mut manners = Manners::some(&mut random);
        for step in 0..200 {
            if step % 40 == 0 {
                manners = Manners::some(&mut random);
            }
            let entry = next(&mut random, &lent, &manners);
            let after = by_model(&entry, &lent);
            let then = Lent { shape, record: after.record, tables: after.tables };
            if entry != Entry::Build {
                show(&lent, &entry, &then);
            }
            lent = then;
        }
    }
}

#[test]
fn made_states_are_valid() {
    for run in 0..2000 {
        let mut random = Random::of_run(2, run);
        let shape = shapes::allowed(&mut random);
        let lent = states::valid(&mut random, &shape);
        assert_eq!(valid::lines(&lent), [true; 8], "{lent:?}");
    }
}

#[test]
fn steps_leave_valid_tables_and_make_the_ten_moves() {
    let mut seen = BTreeSet::new();
    each_step(300, |before, entry, after| {
        assert!(valid::valid(after), "{before:?} {entry:?} {after:?}");
        for (&from, &to) in before.tables.states.iter().zip(&after.tables.states) {
            if from != to {
                seen.insert((from, to));
            }
        }
    });
    assert_eq!(seen, BTreeSet::from(MOVES));
}

#[test]
fn each_damage_leaves_what_it_says() {
    let kinds = damage::kinds();
    let mut tried = vec![0; kinds.len()];
    let mut sole_lines = BTreeSet::new();
    for run in 0..300 {
        let mut random = Random::of_run(3, run);
        let shape = shapes::allowed(&mut random);
        let lent = states::valid(&mut random, &shape);
        for (kind, tried) in kinds.iter().zip(&mut tried) {
            let mut damaged = lent.clone();
            if (kind.edit)(&mut random, &mut damaged) {
                *tried += 1;
                assert!(damage::agrees(kind.leaves, &damaged), "{}: {lent:?}, {damaged:?}", kind.name);
                sole_lines.extend(damage::sole_broken_line(&damaged));
            } else {
                assert_eq!(damaged, lent, "{}", kind.name);
            }
        }
    }
    for (kind, tried) in kinds.iter().zip(tried) {
        assert!(tried > 0, "{} was never tried", kind.name);
    }
    assert_eq!(sole_lines, (0..8).collect());
}

/// Which bytes of the pool are free.
fn free_bytes(lent: &Lent) -> Vec<bool> {
    let mut free = vec![false; lent.shape.bytes()];
    for block in questions::standing_blocks(lent) {
        free[block.offset..block.offset + block.size].fill(block.state == FREE);
    }
    free
}

/// Where runs of so many free bytes start at a multiple of their length.
fn runs_of(free: &[bool], length: usize) -> Vec<usize> {
    let starts = (0..free.len()).step_by(length);
    starts.filter(|&start| free[start..start + length].iter().all(|&byte| byte)).collect()
}

/// Makes the call go on until it ends: the last answer, and the number of steps.
fn count_to_the_end(lent: &mut Lent, thread: usize) -> (usize, usize) {
    let mut steps = 0;
    let mut answer = 0;
    while lent.cells(thread).stage != CLOSED {
        answer = number_and_detail(go_on::go_on(lent, thread)).0;
        steps += 1;
    }
    (answer, steps)
}

#[test]
fn demand_3_a_size_is_granted_exactly_if_a_run_is_free() {
    let mut answers = [0, 0];
    for run in 0..1000 {
        let mut random = Random::of_run(4, run);
        let shape = shapes::allowed(&mut random);
        let mut lent = states::valid(&mut random, &shape);
        let Some(thread) = (0..shape.threads).find(|&thread| lent.cells(thread).stage == CLOSED) else {
            continue;
        };
        calls::switch(&mut lent, thread).unwrap();
        let size = states::some_size(&mut random, &lent) as usize;
        let fits = (0..shape.levels).map(|level| shape.size(level)).filter(|&fit| fit >= size);
        let length = fits.min().unwrap();
        let before = free_bytes(&lent);
        let runs = runs_of(&before, length);
        calls::ask(&mut lent, thread, size, 0).unwrap();
        let (answer, steps) = count_to_the_end(&mut lent, thread);
        assert!(steps <= shape.levels + 2);
        let after = free_bytes(&lent);
        let gone: Vec<usize> = (0..before.len()).filter(|&byte| before[byte] != after[byte]).collect();
        assert_eq!(answer, if runs.is_empty() { 14 } else { 45 });
        if answer == 45 {
            assert!(runs.iter().any(|&start| gone == (start..start + length).collect::<Vec<_>>()));
        } else {
            assert!(gone.is_empty());
        }
        answers[usize::from(answer == 45)] += 1;
    }
    assert!(answers.iter().all(|&times| times > 100), "{answers:?}");
}

#[test]
fn the_map_is_without_gap_and_cover_agrees_with_it() {
    for run in 0..100 {
        let mut random = Random::of_run(5, run);
        let shape = shapes::allowed(&mut random);
        let lent = states::valid(&mut random, &shape);
        let mut end = 0;
        for block in questions::standing_blocks(&lent) {
            assert_eq!(block.offset, end);
            end += block.size;
            let byte = random.between(block.offset, end - 1);
            assert_eq!(questions::cover(&lent, byte), Ok(block));
        }
        assert_eq!(end, shape.bytes());
    }
}
