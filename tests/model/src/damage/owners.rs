//! Edits of the owners.

use super::blocks::some_block;
use super::{broken, still_valid, Kind};
use crate::random::Random;
use crate::rules::lent::*;

pub const KINDS: &[Kind] = &[
    broken("an ALLOCATED block without owner", without_owner),
    broken("an owner that is no thread", no_thread),
    still_valid("another thread as owner", another_thread),
    broken("an owner on a block not ALLOCATED", not_allocated),
];

/// Gives an owner to some ALLOCATED block.
fn owned_by(random: &mut Random, lent: &mut Lent, owner: u8) -> bool {
    let found = some_block(random, lent, |level, block| lent.state(level, block) == ALLOCATED);
    if let Some((level, block)) = found {
        lent.set_owner(level, block, owner);
    }
    found.is_some()
}

fn without_owner(random: &mut Random, lent: &mut Lent) -> bool {
    owned_by(random, lent, 0)
}

fn no_thread(random: &mut Random, lent: &mut Lent) -> bool {
    let threads = lent.shape.threads as u8;
    let owner = random.pick(&[threads + 1, threads + 1, 9, 16 + threads, 128 + threads, 255]);
    owned_by(random, lent, owner)
}

fn another_thread(random: &mut Random, lent: &mut Lent) -> bool {
    let owner = random.between(1, lent.shape.threads) as u8;
    owned_by(random, lent, owner)
}

fn not_allocated(random: &mut Random, lent: &mut Lent) -> bool {
    let owner = random.pick(&[1, lent.shape.threads as u8, lent.shape.threads as u8 + 1, 255]);
    let found = some_block(random, lent, |level, block| lent.state(level, block) != ALLOCATED);
    if let Some((level, block)) = found {
        lent.set_owner(level, block, owner);
    }
    found.is_some()
}
