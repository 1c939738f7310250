//! Shapes, allowed and not.

use crate::random::Random;
use crate::rules::shape::Shape;

/// Numbers at the ends of the usual widths, and in between.
const TELLING: [usize; 16] = [
    0,
    1,
    2,
    255,
    256,
    257,
    65_535,
    65_536,
    0x7FFF_FFFF,
    0x8000_0000,
    0xFFFF_FFFF,
    0x1_0000_0000,
    0x1_0000_0001,
    usize::MAX / 2,
    usize::MAX - 1,
    usize::MAX,
];

/// Any number at all, with a liking for those at the ends of the usual widths.
pub fn wild(random: &mut Random) -> usize {
    match random.below(4) {
        0 => random.number() as usize,
        1 => random.number() as usize >> random.below(64),
        _ => random.pick(&TELLING),
    }
}

/// An allowed shape, mostly with few blocks, at times with as many as there may be.
pub fn allowed(random: &mut Random) -> Shape {
    let levels = random.pick(&[1, 1, 2, 2, 2, 2, 3, 3, 3, 3, 4, 5]);
    let tops = match (levels, random.below(12)) {
        (_, 0) => random.pick(&[15, 16]),
        (1 | 2, 1..=6) => random.between(1, 16),
        (1 | 2, _) => random.between(1, 4),
        (3, _) => random.between(1, 3),
        _ => 1,
    };
    Shape {
        pool: random.pick(&[0, 1, 7, 254, 255]),
        threads: random.pick(&[1, 2, 2, 3, 3, 4, 5, 6, 7, 8, 8]),
        levels,
        tops,
        top_size: top_size(random, levels),
    }
}

/// A top size for this many levels: the least, the most, a power of four or any other.
fn top_size(random: &mut Random, levels: usize) -> usize {
    let least = 4usize.pow(levels as u32);
    match random.below(6) {
        0 | 1 => least,
        2 => 65_536,
        3 => 65_536 - least,
        _ => least * random.between(1, 65_536 / least),
    }
}

/// A shape that is not allowed: one field, or several, outside its limits.
pub fn not_allowed(random: &mut Random, near: &Shape) -> Shape {
    loop {
        let mut shape = *near;
        for _ in 0..random.pick(&[1, 1, 1, 2, 5]) {
            spoil(random, &mut shape);
        }
        if !shape.allowed() {
            return shape;
        }
    }
}

/// Sets one field to a number outside its limits, or nearly so.
fn spoil(random: &mut Random, shape: &mut Shape) {
    let far = wild(random);
    match random.below(5) {
        0 => shape.pool = random.pick(&[256, 257, 511, 4096, far]),
        1 => shape.threads = random.pick(&[0, 9, 9, 10, 255, 256, shape.threads.wrapping_add(256), far]),
        2 => {
            shape.levels = random.pick(&[0, 6, 6, 7, 8, 16, 31, 32, 33, 64, 1024, far]);
            // A top size that would do for six levels to eight.
            shape.top_size = random.pick(&[shape.top_size, 4096, 16_384, 65_536]);
        }
        3 => shape.tops = random.pick(&[0, 17, 17, 18, 256, shape.tops.wrapping_add(256), far]),
        _ => {
            let by_one = shape.top_size.wrapping_add(random.pick(&[usize::MAX, 1]));
            let larger = random.pick(&[65_537, 66_560, 66_560, 131_072, 1 << 32, 1 << 63]);
            let smaller = random.pick(&[0, 1, 2, 3, 4usize.pow(4), shape.top_size / 4]);
            shape.top_size = random.pick(&[by_one, larger, smaller, far]);
        }
    }
}

/// The longest tables that any shape needs, for lengths that follow from none.
pub fn some_length(random: &mut Random) -> usize {
    random.pick(&[0, 1, 2, 5, 6, 21, 64, 341, 5456])
}
