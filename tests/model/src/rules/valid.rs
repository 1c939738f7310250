//! "Tables are a valid state when": document 01's eight lines, one function a line, in its order.
//!
//! The shape is allowed and the lengths are right when these are asked; beyond that every cell may hold
//! any number. Each line stands alone: none relies on another having been tried first.

use super::lent::*;

/// Do all eight lines hold?
pub fn valid(lent: &Lent) -> bool {
    lines(lent).iter().all(|&holds| holds)
}

/// Which of the eight lines hold.
pub fn lines(lent: &Lent) -> [bool; 8] {
    [
        numbers_and_unused_places(lent),
        divisions(lent),
        no_four_free_buddies(lent),
        free_lists(lent),
        owners(lent),
        blocks_in_hand(lent),
        queue_and_running(lent),
        sizes_levels_and_deadlines(lent),
    ]
}

/// "Every state is 0 to 5; places behind the end of a list or queue, and the fields that a call's stage
/// doesn't use, hold zero."
fn numbers_and_unused_places(lent: &Lent) -> bool {
    lent.tables.states.iter().all(|&state| state <= 5)
        && (0..lent.shape.levels).all(|level| list_ends_well(lent, level))
        && queue_ends_well(lent)
        && lent.all_cells().iter().all(unused_fields_hold_zero)
}

/// The list's length fits its section, and the places behind its end hold zero.
fn list_ends_well(lent: &Lent, level: usize) -> bool {
    let (length, section) = (lent.list_length(level), lent.list_section(level));
    length <= section.len() && section[length..].iter().all(|&place| place == 0)
}

/// The queue's length fits the threads, and the places behind its end hold zero.
fn queue_ends_well(lent: &Lent) -> bool {
    let (length, places) = (lent.queue_length(), &lent.tables.queue[1..]);
    length <= places.len() && places[length..].iter().all(|&place| place == 0)
}

/// "*asked* and waiting use the size, the kind of wait and a timed deadline, *found* these and the found
/// level, *dividing* the size and the block in hand, *releasing* the block in hand." A block in hand is
/// a level and a number. A stage or a kind of wait that there is not is never valid.
fn unused_fields_hold_zero(cells: &Cells) -> bool {
    let timed = cells.kind == TIMED;
    let [size, kind, deadline, level, block] = match cells.stage {
        CLOSED => [false, false, false, false, false],
        ASKED | WAITING => [true, true, timed, false, false],
        FOUND => [true, true, timed, true, false],
        DIVIDING => [true, false, false, true, true],
        RELEASING => [false, false, false, true, true],
        _ => return false,
    };
    (size || cells.size == 0)
        && (if kind { cells.kind <= TIMED } else { cells.kind == 0 })
        && (deadline || cells.deadline == 0)
        && (level || cells.level == 0)
        && (block || cells.block == 0)
}

/// "No top block is NOEXIST; the quarters of a DIVIDED block are not NOEXIST, those of any other block
/// are; the deepest level has no DIVIDED block."
fn divisions(lent: &Lent) -> bool {
    let deepest = lent.shape.deepest();
    let tops_exist = lent.states_of(0).iter().all(|&state| state != NOEXIST);
    let quarters_right = (0..deepest).all(|level| {
        let deeper = lent.states_of(level + 1);
        lent.states_of(level).iter().enumerate().all(|(block, &state)| {
            let mut quarters = deeper[4 * block..4 * block + 4].iter();
            quarters.all(|&quarter| (quarter != NOEXIST) == (state == DIVIDED))
        })
    });
    let deepest_undivided = lent.states_of(deepest).iter().all(|&state| state != DIVIDED);
    tops_exist && quarters_right && deepest_undivided
}

/// "Below level 0, no four buddies are all FREE." Buddies are 4b to 4b + 3.
fn no_four_free_buddies(lent: &Lent) -> bool {
    (1..lent.shape.levels).all(|level| {
        let mut fours = lent.states_of(level).chunks(4);
        fours.all(|buddies| !buddies.iter().all(|&state| state == FREE))
    })
}

/// "Each level's free list names each FREE block of that level once and nothing else."
fn free_lists(lent: &Lent) -> bool {
    (0..lent.shape.levels).all(|level| {
        let states = lent.states_of(level);
        let mut times_named = vec![0; states.len()];
        for member in lent.list(level) {
            if member >= states.len() {
                return false;
            }
            times_named[member] += 1;
        }
        states.iter().zip(times_named).all(|(&state, times)| times == usize::from(state == FREE))
    })
}

/// "An ALLOCATED block has a thread as owner, every other block has none."
fn owners(lent: &Lent) -> bool {
    let mut blocks = lent.tables.states.iter().zip(&lent.tables.owners);
    blocks.all(|(&state, &owner)| {
        if state == ALLOCATED {
            (1..=lent.shape.threads).contains(&usize::from(owner))
        } else {
            owner == 0
        }
    })
}

/// "ALLOCATING blocks correspond one to one to dividing calls, FREEING blocks to releasing calls, and a
/// block in hand is not deeper than its target, which is the level for the size asked."
fn blocks_in_hand(lent: &Lent) -> bool {
    one_to_one(lent, ALLOCATING, DIVIDING)
        && one_to_one(lent, FREEING, RELEASING)
        && lent.all_cells().iter().filter(|cells| cells.stage == DIVIDING).all(|cells| {
            // A size above the top has no target; the last line refuses it.
            lent.shape.target(cells.size).is_none_or(|target| cells.level <= target as u64)
        })
}

/// Each call of this stage has a block of the shape in hand, and each block of the shape is in the hand
/// of exactly one such call if it is in this state, of none if not.
fn one_to_one(lent: &Lent, state: u8, stage: u64) -> bool {
    let calls = lent.all_cells().into_iter().filter(|cells| cells.stage == stage);
    let hands: Vec<(u64, u64)> = calls.map(|cells| (cells.level, cells.block)).collect();
    let in_shape = hands.iter().all(|&(level, block)| {
        level < lent.shape.levels as u64 && block < lent.shape.count(level as usize) as u64
    });
    let times_in_hand = |level: usize, block: usize| {
        hands.iter().filter(|&&hand| hand == (level as u64, block as u64)).count()
    };
    let each_once = (0..lent.shape.levels).all(|level| {
        let mut blocks = lent.states_of(level).iter().enumerate();
        blocks.all(|(block, &here)| times_in_hand(level, block) == usize::from(here == state))
    });
    in_shape && each_once
}

/// "The wait queue names each blocked thread once and nothing else; blocked threads are those whose call
/// is waiting; the running thread, if there is one, is a thread of the shape and isn't blocked."
fn queue_and_running(lent: &Lent) -> bool {
    let (threads, queue) = (lent.shape.threads, lent.queue());
    let blocked = |thread: usize| lent.cells(thread).stage == WAITING;
    let only_threads = queue.iter().all(|&thread| thread < threads);
    let each_once = (0..threads).all(|thread| {
        let times = queue.iter().filter(|&&named| named == thread).count();
        times == usize::from(blocked(thread))
    });
    let running = lent.record.running as usize;
    let runner_right = running == 0 || (running <= threads && !blocked(running - 1));
    only_threads && each_once && runner_right
}

/// "Asked sizes are at most the top size; a found level is at most the target; a timed deadline is at
/// most clock + 60,000, and above the clock while waiting; a call that may not wait is never waiting."
fn sizes_levels_and_deadlines(lent: &Lent) -> bool {
    let clock = u64::from(lent.record.clock);
    lent.all_cells().iter().all(|cells| {
        let stage = cells.stage;
        let asks = [ASKED, FOUND, DIVIDING, WAITING].contains(&stage);
        let timed = [ASKED, FOUND, WAITING].contains(&stage) && cells.kind == TIMED;
        let target = lent.shape.target(cells.size);
        let size_right = !asks || cells.size <= lent.shape.top_size as u64;
        let found_right = stage != FOUND || target.is_some_and(|target| cells.level <= target as u64);
        let not_too_far = !timed || cells.deadline <= clock + 60_000;
        let still_to_come = !(timed && stage == WAITING) || cells.deadline > clock;
        let may_wait = stage != WAITING || cells.kind != NEVER;
        size_right && found_right && not_too_far && still_to_come && may_wait
    })
}
