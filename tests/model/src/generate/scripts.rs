//! Scripts, good and damaged, each of a named kind.

use super::records::{good, record, shape_record, STEPS};
use super::shapes;
use crate::random::Random;
use crate::script::*;

/// How the listing of a script ends.
#[derive(Clone, Copy, Debug, PartialEq, Eq)]
pub enum Ends {
    /// With its last record's answer, no record being bad.
    Well,
    /// With refusal 17.
    Bad,
    /// With refusal 1 at the first record.
    NoShape,
    /// It depends.
    Either,
}

/// A kind of script.
pub struct Kind {
    pub name: &'static str,
    pub ends: Ends,
    pub make: fn(&mut Random) -> Vec<u8>,
}

/// A kind of script.
const fn kind(name: &'static str, ends: Ends, make: fn(&mut Random) -> Vec<u8>) -> Kind {
    Kind { name, ends, make }
}

/// All kinds.
pub const KINDS: &[Kind] = &[
    kind("empty input", Ends::Bad, |_| vec![]),
    kind("a short run", Ends::Well, short),
    kind("a long run", Ends::Well, long),
    kind("65,536 bytes, all good", Ends::Well, |random| just(random, MOST_BYTES)),
    kind("65,536 bytes, the last record cut", Ends::Bad, last_cut),
    kind("65,537 bytes", Ends::Bad, |random| just(random, MOST_BYTES + 1)),
    kind("far more than 65,536 bytes", Ends::Bad, far_more),
    kind("another tag", Ends::Bad, other_tag),
    kind("another length", Ends::Bad, other_length),
    kind("a shape of another length", Ends::Bad, other_shape_length),
    kind("cut behind the tag", Ends::Bad, |random| cut(random, 1)),
    kind("cut in the length", Ends::Bad, |random| cut(random, 2)),
    kind("cut before the value", Ends::Bad, |random| cut(random, 3)),
    kind("cut in the value", Ends::Bad, |random| cut(random, 4)),
    kind("a length far past the end", Ends::Bad, far_length),
    kind("tag 1 later", Ends::Bad, shape_later),
    kind("another tag first", Ends::Bad, other_tag_first),
    kind("the first record cut", Ends::Bad, first_cut),
    kind("a shape not allowed", Ends::NoShape, not_allowed),
    kind("one byte changed", Ends::Either, byte_changed),
    kind("cut anywhere", Ends::Either, cut_anywhere),
    kind("arbitrary bytes", Ends::Bad, arbitrary_first),
    kind("arbitrary bytes behind a shape", Ends::Either, arbitrary),
    kind("right lengths with arbitrary values", Ends::Well, arbitrary_values),
];

/// Arbitrary bytes, so many.
fn any_bytes(random: &mut Random, length: usize) -> Vec<u8> {
    (0..length).map(|_| random.number() as u8).collect()
}

/// A good run of up to some hundred records.
fn short(random: &mut Random) -> Vec<u8> {
    let bytes = random.pick(&[11, 20, 100, 400, 1000]);
    good(random, bytes)
}

fn long(random: &mut Random) -> Vec<u8> {
    let bytes = random.between(4000, 30_000);
    good(random, bytes)
}

/// A good run of just so many bytes.
fn just(random: &mut Random, bytes: usize) -> Vec<u8> {
    let mut script = good(random, bytes - 40);
    // Records of three and of four bytes add up to any length from six on.
    while !(bytes - script.len()).is_multiple_of(3) {
        script.extend(record(SWITCH_TAG, &[random.below(3) as u8]));
    }
    while script.len() < bytes {
        script.extend(record(random.pick(&[TICK_TAG, WHOLE_TAG]), &[]));
    }
    script
}

fn last_cut(random: &mut Random) -> Vec<u8> {
    let longer = random.between(1, 2);
    let mut script = just(random, MOST_BYTES + longer);
    script.truncate(MOST_BYTES);
    script
}

fn far_more(random: &mut Random) -> Vec<u8> {
    let length = random.pick(&[65_538, 70_000, 131_072, 300_000]);
    let mut script = short(random);
    script.resize(length, random.pick(&[0, TICK_TAG]));
    script
}

/// A good run, these bytes, and mostly a good record behind them.
fn behind(random: &mut Random, bytes: &[u8]) -> Vec<u8> {
    let mut script = short(random);
    script.extend_from_slice(bytes);
    if random.percent(70) {
        script.extend(record(WHOLE_TAG, &[]));
    }
    script
}

fn other_tag(random: &mut Random) -> Vec<u8> {
    let known = |tag: u8| tag == SHAPE_TAG || STEPS.iter().any(|&(step, _)| step == tag);
    let others: Vec<u8> = (0..=255).filter(|&tag| !known(tag)).collect();
    let far = random.pick(&others);
    let tag = random.pick(&[others[0], others[1], others[2], 127, 128, 254, 255, far]);
    let length = random.pick(&[0, 1, 5, 8, 9]);
    let value = any_bytes(random, length);
    behind(random, &record(tag, &value))
}

fn other_length(random: &mut Random) -> Vec<u8> {
    let (tag, right) = random.pick(STEPS);
    let near = random.pick(right);
    let wrong = [0, 1, 4, 5, 6, 7, 8, 9, 10, near + 1, near + 256, 300];
    let length = random.pick(&wrong);
    let length = if right.contains(&length) { near + 2 } else { length };
    let value = any_bytes(random, length);
    behind(random, &record(tag, &value))
}

fn other_shape_length(random: &mut Random) -> Vec<u8> {
    let mut shape = shape_record(&shapes::allowed(random));
    let length = random.pick(&[0, 1, 4, 7, 9, 10, 264]);
    shape.resize(3 + length, 0);
    shape[1..3].copy_from_slice(&(length as u16).to_le_bytes());
    shape.extend(record(TICK_TAG, &[]));
    shape
}

/// A good run and only the first bytes of one more record that has at least as many.
fn cut(random: &mut Random, bytes: usize) -> Vec<u8> {
    let records = [record(ASK_TAG, &[0; 9]), record(ASK_TAG, &[0; 5]), record(GIVE_TAG, &[0; 5])];
    let mut cut = random.pick(&[&records[0], &records[1], &records[2]]).clone();
    if bytes < 4 && random.percent(50) {
        cut = record(random.pick(&[GO_ON_TAG, SWITCH_TAG]), &[0]);
    } else if bytes < 3 && random.percent(50) {
        cut = record(random.pick(&[TICK_TAG, WHOLE_TAG]), &[]);
    }
    let kept = if bytes < 4 { bytes } else { random.between(4, cut.len() - 1) };
    cut.truncate(kept);
    let mut script = short(random);
    script.extend(cut);
    script
}

fn far_length(random: &mut Random) -> Vec<u8> {
    let length = random.pick(&[0xFFFF, 0xFF00, 0x8000, 0x0109]);
    let mut script = short(random);
    script.push(random.between(2, 8) as u8);
    script.extend(u16::to_le_bytes(length));
    script.extend([0, 0, 0, 0, 0, 0, 0, 0, 0]);
    script
}

fn shape_later(random: &mut Random) -> Vec<u8> {
    let shape = shape_record(&shapes::allowed(random));
    let other = record(SHAPE_TAG, &[]);
    let later = if random.percent(80) { shape } else { other };
    behind(random, &later)
}

fn other_tag_first(random: &mut Random) -> Vec<u8> {
    let one = random.between(0, 255) as u8;
    let mut script = if random.once_in(8) {
        record(if one == SHAPE_TAG { 0 } else { one }, &[1, 2, 2, 1, 64, 0, 0, 0])
    } else {
        let (tag, lengths) = random.pick(STEPS);
        record(tag, &vec![0; random.pick(lengths)])
    };
    script.extend(short(random));
    script
}

fn first_cut(random: &mut Random) -> Vec<u8> {
    let mut script = shape_record(&shapes::allowed(random));
    script.truncate(random.between(1, 10));
    script
}

fn not_allowed(random: &mut Random) -> Vec<u8> {
    loop {
        let near = shapes::allowed(random);
        let mut shape = shapes::not_allowed(random, &near);
        (shape.pool, shape.threads, shape.levels) =
            (shape.pool & 0xFF, shape.threads & 0xFF, shape.levels & 0xFF);
        (shape.tops, shape.top_size) = (shape.tops & 0xFF, shape.top_size & 0xFFFF_FFFF);
        if !shape.allowed() {
            let mut script = shape_record(&shape);
            script.extend(short(random));
            return script;
        }
    }
}

fn byte_changed(random: &mut Random) -> Vec<u8> {
    let mut script = short(random);
    let place = random.below(script.len());
    let number = random.number() as u8;
    script[place] = random.pick(&[number, number % 10, script[place] ^ 1, script[place] ^ 128]);
    script
}

fn cut_anywhere(random: &mut Random) -> Vec<u8> {
    let mut script = short(random);
    script.truncate(random.between(1, script.len()));
    script
}

fn arbitrary_first(random: &mut Random) -> Vec<u8> {
    let length = random.pick(&[1, 2, 3, 10, 100, 5000, MOST_BYTES]);
    let mut script = any_bytes(random, length);
    script[0] |= 8;
    script
}

fn arbitrary(random: &mut Random) -> Vec<u8> {
    let mut script = short(random);
    let length = random.between(1, 40);
    let small: Vec<u8> = any_bytes(random, length).iter().map(|byte| byte % 10).collect();
    script.extend(small);
    script
}

fn arbitrary_values(random: &mut Random) -> Vec<u8> {
    let mut script = short(random);
    for _ in 0..random.between(1, 30) {
        let (tag, lengths) = random.pick(STEPS);
        let length = random.pick(lengths);
        let mut value = any_bytes(random, length);
        if length > 0 && random.percent(80) {
            value[0] %= 4;
        }
        script.extend(record(tag, &value));
    }
    script
}
