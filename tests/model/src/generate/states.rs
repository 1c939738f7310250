//! Valid tables straight from the meaning of "valid state", many of which no history reaches.

use crate::random::Random;
use crate::rules::lent::*;
use crate::rules::shape::Shape;

/// How a pool is filled: of a hundred blocks, how many are divided, FREE, and in some call's hand.
struct Taste {
    divided: usize,
    free: usize,
    in_hand: usize,
}

/// Valid tables of an allowed shape.
pub fn valid(random: &mut Random, shape: &Shape) -> Lent {
    let record = Record { clock: some_clock(random), running: 0 };
    let mut lent = Lent { shape: *shape, record, tables: Tables::zeros(shape) };
    lent.tables.states.fill(NOEXIST);
    let taste = Taste {
        divided: random.pick(&[0, 20, 50, 80, 100]),
        free: random.pick(&[0, 10, 50, 90]),
        in_hand: random.pick(&[0, 2, 10, 50]),
    };
    let mut hands = Vec::new();
    for block in 0..shape.tops {
        stand(random, &mut lent, &taste, &mut hands, (0, block));
    }
    write_lists(random, &mut lent);
    write_calls(random, &mut lent, &hands);
    lent
}

/// A clock: the ends, near them, and anything.
pub fn some_clock(random: &mut Random) -> u32 {
    match random.below(6) {
        0 => 0,
        1 => random.below(100) as u32,
        2 => u32::MAX,
        3 => u32::MAX - random.below(70_000) as u32,
        4 => u32::MAX - random.below(10) as u32,
        _ => random.number() as u32,
    }
}

/// Gives a block of a divided parent (or a top block) a state, and its quarters theirs.
fn stand(
    random: &mut Random,
    lent: &mut Lent,
    taste: &Taste,
    hands: &mut Vec<(usize, usize)>,
    (level, block): (usize, usize),
) {
    if level < lent.shape.deepest() && random.percent(taste.divided) {
        lent.set_state(level, block, DIVIDED);
        for quarter in 4 * block..4 * block + 4 {
            stand(random, lent, taste, hands, (level + 1, quarter));
        }
        let all_free = (4 * block..4 * block + 4).all(|quarter| lent.state(level + 1, quarter) == FREE);
        if all_free {
            let quarter = 4 * block + random.below(4);
            allocate(random, lent, level + 1, quarter);
        }
    } else if hands.len() < lent.shape.threads && random.percent(taste.in_hand) {
        lent.set_state(level, block, random.pick(&[FREEING, ALLOCATING]));
        hands.push((level, block));
    } else if random.percent(taste.free) {
        lent.set_state(level, block, FREE);
    } else {
        allocate(random, lent, level, block);
    }
}

/// Makes a block ALLOCATED, with some thread as owner.
fn allocate(random: &mut Random, lent: &mut Lent, level: usize, block: usize) {
    lent.set_state(level, block, ALLOCATED);
    lent.set_owner(level, block, random.between(1, lent.shape.threads) as u8);
}

/// Writes each level's free list, in any order.
fn write_lists(random: &mut Random, lent: &mut Lent) {
    for level in 0..lent.shape.levels {
        let count = lent.shape.count(level);
        let mut free: Vec<usize> = (0..count).filter(|&block| lent.state(level, block) == FREE).collect();
        random.shuffle(&mut free);
        lent.set_list(level, &free);
    }
}

/// Gives the blocks in hand to some threads and the others any call or none; then queue and runner.
fn write_calls(random: &mut Random, lent: &mut Lent, hands: &[(usize, usize)]) {
    let mut threads: Vec<usize> = (0..lent.shape.threads).collect();
    random.shuffle(&mut threads);
    let stages: &[u64] =
        if random.once_in(6) { &[WAITING] } else { &[CLOSED, CLOSED, ASKED, FOUND, WAITING] };
    let mut waiting = Vec::new();
    for (place, &thread) in threads.iter().enumerate() {
        let cells = match hands.get(place) {
            Some(&hand) => with_hand(random, lent, hand),
            None => without_hand(random, lent, stages),
        };
        lent.set_cells(thread, cells);
        if cells.stage == WAITING {
            waiting.push(thread);
        }
    }
    random.shuffle(&mut waiting);
    lent.set_queue(&waiting);
    threads.retain(|thread| !waiting.contains(thread));
    let runner = if random.once_in(5) { None } else { random.pick_any(&threads) };
    lent.record.running = runner.map_or(0, |thread| thread as u32 + 1);
}

/// The call that has this block in hand.
fn with_hand(random: &mut Random, lent: &Lent, (level, block): (usize, usize)) -> Cells {
    let hand = Cells { level: level as u64, block: block as u64, ..Cells::default() };
    if lent.state(level, block) == FREEING {
        return Cells { stage: RELEASING, ..hand };
    }
    let most = lent.shape.size(level);
    let any = random.between(0, most);
    let size = random.pick(&[0, most, most / 4, most / 4 + 1, any]);
    Cells { stage: DIVIDING, size: size as u64, ..hand }
}

/// A closed call, or one that has asked, found or waits: one of these stages.
fn without_hand(random: &mut Random, lent: &Lent, stages: &[u64]) -> Cells {
    let stage = random.pick(stages);
    if stage == CLOSED {
        return Cells::default();
    }
    let size = some_size(random, lent);
    let kind = random.pick(if stage == WAITING { &[FOREVER, TIMED] } else { &[NEVER, FOREVER, TIMED] });
    let deadline = if kind == TIMED { some_deadline(random, lent, stage) } else { 0 };
    let target = lent.shape.target(size).expect("a size up to the top");
    let level = if stage == FOUND { random.between(0, target) as u64 } else { 0 };
    Cells { stage, size, kind, deadline, level, block: 0 }
}

/// A size up to the top, with a liking for those on either side of a block's.
pub fn some_size(random: &mut Random, lent: &Lent) -> u64 {
    let block = lent.shape.size(random.below(lent.shape.levels));
    let top = lent.shape.top_size;
    let any = random.between(0, top);
    random.pick(&[0, 1, block, block - 1, block + 1, any]).min(top) as u64
}

/// A deadline that this stage may have.
pub fn some_deadline(random: &mut Random, lent: &Lent, stage: u64) -> u64 {
    let clock = u64::from(lent.record.clock);
    let any = random.between(1, 60_000) as u64;
    let ahead = random.pick(&[1, 1, 2, 3, 59_999, 60_000, any]);
    if stage == WAITING || random.percent(50) {
        return clock + ahead;
    }
    random.pick(&[0, clock, clock.saturating_sub(1), clock.saturating_sub(ahead)])
}
