//! Edits of states: flipped ones, and blocks that are where none may be.

use super::{broken, either, still_valid, Kind};
use crate::random::Random;
use crate::rules::lent::*;

pub const KINDS: &[Kind] = &[
    broken("a flipped state", flip),
    broken("a state above 5", above_five),
    broken("a state above 5, list and owner following", rest_above_five),
    broken("four free buddies", four_free_buddies),
    broken("a divided block at the deepest level", deepest_divided),
    broken("a NOEXIST top block", top_does_not_exist),
    broken("a quarter of a divided block is NOEXIST", quarter_missing),
    broken("a quarter of an undivided block exists", quarter_too_many),
    still_valid("a FREE block is allocated by hand", allocate),
    either("an ALLOCATED block is freed by hand", free),
    still_valid("a block is divided by hand", divide),
    either("four quarters are made one by hand", unite),
];

/// Some block for which the question is answered yes.
pub fn some_block(
    random: &mut Random,
    lent: &Lent,
    likes: impl Fn(usize, usize) -> bool,
) -> Option<(usize, usize)> {
    let blocks: Vec<(usize, usize)> =
        lent.shape.every_block().filter(|&(level, block)| likes(level, block)).collect();
    random.pick_any(&blocks)
}

/// Is this block FREE or ALLOCATED: undivided and in nobody's hand?
pub fn at_rest(lent: &Lent, level: usize, block: usize) -> bool {
    [FREE, ALLOCATED].contains(&lent.state(level, block))
}

/// Makes a block at rest another state, its list and its owner following.
pub fn rest_to(random: &mut Random, lent: &mut Lent, (level, block): (usize, usize), state: u8) {
    let mut list = lent.list(level);
    list.retain(|&member| member != block);
    if state == FREE {
        list.push(block);
    }
    lent.set_list(level, &list);
    let owner = if state == ALLOCATED { random.between(1, lent.shape.threads) } else { 0 };
    lent.set_owner(level, block, owner as u8);
    lent.set_state(level, block, state);
}

/// Finds a block that is liked and makes it another state, its list and its owner following.
fn move_some(
    random: &mut Random,
    lent: &mut Lent,
    state: u8,
    likes: impl Fn(&Lent, usize, usize) -> bool,
) -> bool {
    match some_block(random, lent, |level, block| likes(lent, level, block)) {
        Some(block) => {
            rest_to(random, lent, block, state);
            true
        }
        None => false,
    }
}

fn flip(random: &mut Random, lent: &mut Lent) -> bool {
    let place = random.below(lent.tables.states.len());
    let state = &mut lent.tables.states[place];
    *state = (*state + random.between(1, 5) as u8) % 6;
    true
}

fn above_five(random: &mut Random, lent: &mut Lent) -> bool {
    let place = random.below(lent.tables.states.len());
    let state = lent.tables.states[place];
    lent.tables.states[place] = random.pick(&[6, 7, 8 + state, 128 + state, 248 + state, 255]);
    true
}

fn rest_above_five(random: &mut Random, lent: &mut Lent) -> bool {
    let any = random.between(6, 255) as u8;
    let state = random.pick(&[6, 7, 8, 9, 255, any]);
    move_some(random, lent, state, at_rest)
}

/// Divides a block at rest above the deepest level into these four quarters.
fn quarter(random: &mut Random, lent: &mut Lent, quarters: [u8; 4]) -> bool {
    let deepest = lent.shape.deepest();
    let Some((level, block)) =
        some_block(random, lent, |level, block| level < deepest && at_rest(lent, level, block))
    else {
        return false;
    };
    rest_to(random, lent, (level, block), DIVIDED);
    for (part, state) in quarters.into_iter().enumerate() {
        rest_to(random, lent, (level + 1, 4 * block + part), state);
    }
    true
}

fn four_free_buddies(random: &mut Random, lent: &mut Lent) -> bool {
    quarter(random, lent, [FREE; 4])
}

fn divide(random: &mut Random, lent: &mut Lent) -> bool {
    let mut quarters = [ALLOCATED, FREE, FREE, FREE];
    for state in &mut quarters[1..] {
        *state = random.pick(&[FREE, ALLOCATED]);
    }
    random.shuffle(&mut quarters);
    quarter(random, lent, quarters)
}

fn unite(random: &mut Random, lent: &mut Lent) -> bool {
    let deepest = lent.shape.deepest();
    let Some((level, block)) = some_block(random, lent, |level, block| {
        level < deepest && (4 * block..4 * block + 4).all(|quarter| at_rest(lent, level + 1, quarter))
    }) else {
        return false;
    };
    for quarter in 4 * block..4 * block + 4 {
        rest_to(random, lent, (level + 1, quarter), NOEXIST);
    }
    let state = random.pick(&[FREE, ALLOCATED]);
    rest_to(random, lent, (level, block), state);
    true
}

fn deepest_divided(random: &mut Random, lent: &mut Lent) -> bool {
    move_some(random, lent, DIVIDED, |lent, level, block| {
        level == lent.shape.deepest() && at_rest(lent, level, block)
    })
}

fn top_does_not_exist(random: &mut Random, lent: &mut Lent) -> bool {
    move_some(random, lent, NOEXIST, |lent, level, block| level == 0 && at_rest(lent, level, block))
}

fn quarter_missing(random: &mut Random, lent: &mut Lent) -> bool {
    move_some(random, lent, NOEXIST, |lent, level, block| level > 0 && at_rest(lent, level, block))
}

fn quarter_too_many(random: &mut Random, lent: &mut Lent) -> bool {
    let state = random.pick(&[FREE, ALLOCATED]);
    move_some(random, lent, state, |lent, level, block| lent.state(level, block) == NOEXIST)
}

fn allocate(random: &mut Random, lent: &mut Lent) -> bool {
    move_some(random, lent, ALLOCATED, |lent, level, block| lent.state(level, block) == FREE)
}

fn free(random: &mut Random, lent: &mut Lent) -> bool {
    move_some(random, lent, FREE, |lent, level, block| lent.state(level, block) == ALLOCATED)
}
