//! Damaged tables: small edits of valid ones, each of a named kind.
//!
//! A kind says what it leaves: tables that the rules must refuse, tables that are another valid state,
//! or either. The model is held to that on every edit, so that its own idea of "valid" is tried too.

mod blocks;
mod bytes;
mod calls;
mod lengths;
mod lists;
mod owners;
mod queue;

use crate::random::Random;
use crate::rules::lent::Lent;
use crate::rules::{check_tables, valid};

/// What an edit of valid tables leaves.
#[derive(Clone, Copy, Debug, PartialEq, Eq)]
pub enum Leaves {
    /// Another valid state, always.
    Valid,
    /// No valid state: refusal 3.
    Broken,
    /// A shape that is not allowed: refusal 1.
    NoShape,
    /// A table of the wrong length: refusal 2.
    WrongLength,
    /// It depends.
    Either,
}

/// A kind of edit.
#[derive(Clone, Copy)]
pub struct Kind {
    pub name: &'static str,
    pub leaves: Leaves,
    /// Makes the edit, or answers no where these tables have no place for it (and leaves them as they
    /// were).
    pub edit: fn(&mut Random, &mut Lent) -> bool,
}

/// A kind of edit that the rules must refuse.
const fn broken(name: &'static str, edit: fn(&mut Random, &mut Lent) -> bool) -> Kind {
    Kind { name, leaves: Leaves::Broken, edit }
}

/// A kind of edit that gives another valid state.
const fn still_valid(name: &'static str, edit: fn(&mut Random, &mut Lent) -> bool) -> Kind {
    Kind { name, leaves: Leaves::Valid, edit }
}

/// A kind of edit that may give either.
const fn either(name: &'static str, edit: fn(&mut Random, &mut Lent) -> bool) -> Kind {
    Kind { name, leaves: Leaves::Either, edit }
}

/// All kinds.
pub fn kinds() -> Vec<Kind> {
    [blocks::KINDS, lists::KINDS, owners::KINDS, queue::KINDS, calls::KINDS, bytes::KINDS, lengths::KINDS]
        .concat()
}

/// Does what the edit left agree with its kind?
pub fn agrees(leaves: Leaves, lent: &Lent) -> bool {
    let refusal = check_tables(lent).err().map(|refusal| refusal.0);
    match leaves {
        Leaves::Valid => refusal.is_none(),
        Leaves::Broken => refusal == Some(3),
        Leaves::NoShape => refusal == Some(1),
        Leaves::WrongLength => refusal == Some(2),
        Leaves::Either => true,
    }
}

/// The one line of "valid state" that does not hold, if there is exactly one.
pub fn sole_broken_line(lent: &Lent) -> Option<usize> {
    if !lent.shape.allowed() || !lent.lengths_right() {
        return None;
    }
    let lines = valid::lines(lent);
    let mut broken = (0..lines.len()).filter(|&line| !lines[line]);
    let first = broken.next();
    if broken.next().is_some() {
        return None;
    }
    first
}

/// A second damage, of a kind that any tables have a place for.
pub fn once_more(random: &mut Random, lent: &mut Lent) {
    let edits = [bytes::few_cells, lengths::any_lengths, lengths::not_allowed];
    random.pick(&edits)(random, lent);
}

/// Arbitrary numbers in all tables of a right length, for the pool that is built over them.
pub fn scribble(random: &mut Random, lent: &mut Lent) {
    bytes::everywhere(random, lent);
}
