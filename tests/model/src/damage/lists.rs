//! Edits of the free lists.

use super::blocks::some_block;
use super::{broken, still_valid, Kind};
use crate::random::Random;
use crate::rules::lent::*;

pub const KINDS: &[Kind] = &[
    broken("a doubled list entry, in another's place", doubled_in_place),
    broken("a doubled list entry, appended", doubled_at_end),
    still_valid("list entries in another order", reordered),
    broken("a wrong list length", wrong_length),
    broken("a length past the section of a full list", past_section),
    broken("a nonzero place behind a list's end", behind_end),
    broken("a list entry that is no block of its level", no_block),
    broken("a list entry for a block that is not FREE, in another's place", not_free_in_place),
    broken("a list entry for a block that is not FREE, appended", not_free_at_end),
    broken("a list entry missing", missing),
    broken("a list entry moved to another level", other_level),
];

/// A level whose list has at least this many members.
fn level_with(random: &mut Random, lent: &Lent, members: usize) -> Option<usize> {
    let levels: Vec<usize> =
        (0..lent.shape.levels).filter(|&level| lent.list_length(level) >= members).collect();
    random.pick_any(&levels)
}

/// A level whose section has room behind its list's end.
fn level_with_room(random: &mut Random, lent: &Lent) -> Option<usize> {
    let has_room = |level: usize| lent.list_length(level) < lent.shape.count(level);
    let levels: Vec<usize> = (0..lent.shape.levels).filter(|&level| has_room(level)).collect();
    random.pick_any(&levels)
}

/// Changes the members of a list with at least so many members.
fn change(
    random: &mut Random,
    lent: &mut Lent,
    members: usize,
    edit: impl Fn(&mut Random, &mut Vec<usize>),
) -> bool {
    let Some(level) = level_with(random, lent, members) else { return false };
    let mut list = lent.list(level);
    edit(random, &mut list);
    lent.set_list(level, &list);
    true
}

fn doubled_in_place(random: &mut Random, lent: &mut Lent) -> bool {
    change(random, lent, 2, |random, list| {
        let from = random.below(list.len());
        let to = (from + random.between(1, list.len() - 1)) % list.len();
        list[to] = list[from];
    })
}

fn doubled_at_end(random: &mut Random, lent: &mut Lent) -> bool {
    let Some(level) = level_with_room(random, lent) else { return false };
    let mut list = lent.list(level);
    let Some(member) = random.pick_any(&list) else { return false };
    list.push(member);
    lent.set_list(level, &list);
    true
}

fn reordered(random: &mut Random, lent: &mut Lent) -> bool {
    change(random, lent, 2, |random, list| {
        if random.percent(50) {
            let last = list.len() - 1;
            list.swap(0, last);
        } else {
            random.shuffle(list);
        }
    })
}

fn wrong_length(random: &mut Random, lent: &mut Lent) -> bool {
    let level = random.below(lent.shape.levels);
    let (length, count) = (lent.tables.lists[level], lent.shape.count(level) as u16);
    let any = random.number() as u16;
    let next = length.wrapping_add(1);
    let wrong = [length.wrapping_sub(1), next, next, 0, count, count + 1, length | 0x100, 65_535, any];
    lent.tables.lists[level] = random.pick(&wrong);
    lent.tables.lists[level] != length
}

fn past_section(random: &mut Random, lent: &mut Lent) -> bool {
    let count = lent.shape.count(0);
    if lent.list_length(0) < count {
        return false;
    }
    lent.tables.lists[0] = random.pick(&[count + 1, count + 2, 256 + count, 65_535]) as u16;
    true
}

fn behind_end(random: &mut Random, lent: &mut Lent) -> bool {
    let Some(level) = level_with_room(random, lent) else { return false };
    let count = lent.shape.count(level);
    let position = random.pick(&[lent.list_length(level), count - 1]);
    let member = random.pick(&[1, count as u16, 256, 65_535]);
    lent.tables.lists[lent.shape.levels + lent.shape.place(level, position)] = member;
    true
}

fn no_block(random: &mut Random, lent: &mut Lent) -> bool {
    let Some(level) = level_with(random, lent, 1) else { return false };
    let count = lent.shape.count(level);
    let mut list = lent.list(level);
    let position = random.below(list.len());
    let far = random.between(count, 65_535);
    list[position] = random.pick(&[count, count + 1, list[position] + 32_768, 65_535, far]);
    lent.set_list(level, &list);
    true
}

fn not_free_in_place(random: &mut Random, lent: &mut Lent) -> bool {
    let listed = |level: usize| lent.list_length(level) > 0;
    let Some((level, block)) =
        some_block(random, lent, |level, block| listed(level) && lent.state(level, block) != FREE)
    else {
        return false;
    };
    let mut list = lent.list(level);
    let position = random.below(list.len());
    list[position] = block;
    lent.set_list(level, &list);
    true
}

fn not_free_at_end(random: &mut Random, lent: &mut Lent) -> bool {
    let Some((level, block)) = some_block(random, lent, |level, block| lent.state(level, block) != FREE)
    else {
        return false;
    };
    let mut list = lent.list(level);
    list.push(block);
    lent.set_list(level, &list);
    true
}

fn missing(random: &mut Random, lent: &mut Lent) -> bool {
    change(random, lent, 1, |random, list| {
        let position = random.below(list.len());
        list.remove(position);
    })
}

fn other_level(random: &mut Random, lent: &mut Lent) -> bool {
    let (Some(from), Some(to)) = (level_with(random, lent, 1), level_with_room(random, lent)) else {
        return false;
    };
    if from == to {
        return false;
    }
    let (mut list, mut other) = (lent.list(from), lent.list(to));
    other.push(list.remove(random.below(list.len())));
    lent.set_list(from, &list);
    lent.set_list(to, &other);
    true
}
