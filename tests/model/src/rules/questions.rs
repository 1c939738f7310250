//! The questions: whole, cover and map.

use super::answers::*;
use super::check_tables;
use super::lent::*;

/// Whole: "exactly when all its bytes are free and no thread has a call open" (document 00). Free bytes
/// are those of FREE blocks.
pub fn whole(lent: &Lent) -> Outcome {
    check_tables(lent)?;
    let shape = &lent.shape;
    let free_blocks = shape.every_block().filter(|&(level, block)| lent.state(level, block) == FREE);
    let free_bytes: usize = free_blocks.map(|(level, _)| shape.size(level)).sum();
    let all_closed = lent.all_cells().iter().all(|cells| cells.stage == CLOSED);
    plain(if free_bytes == shape.bytes() && all_closed { WHOLE } else { NOT_WHOLE })
}

/// An undivided block that exists: its first byte, its id and its state.
#[derive(Clone, Copy, Debug, PartialEq, Eq)]
pub struct Standing {
    pub offset: usize,
    pub size: usize,
    pub id: usize,
    pub state: u8,
}

/// All undivided blocks that exist, by address.
pub fn standing_blocks(lent: &Lent) -> Vec<Standing> {
    let shape = &lent.shape;
    let mut standing: Vec<Standing> = shape
        .every_block()
        .map(|(level, block)| Standing {
            offset: shape.offset(level, block),
            size: shape.size(level),
            id: shape.id(level, block),
            state: lent.state(level, block),
        })
        .filter(|block| block.state != DIVIDED && block.state != NOEXIST)
        .collect();
    standing.sort_by_key(|block| block.offset);
    standing
}

/// Cover: "the one undivided existing block over a byte offset, with its state".
pub fn cover(lent: &Lent, offset: usize) -> Result<Standing, Refusal> {
    check_tables(lent)?;
    if offset >= lent.shape.bytes() {
        return Err(OFFSET_OUTSIDE);
    }
    let mut over = standing_blocks(lent)
        .into_iter()
        .filter(|block| block.offset <= offset && offset < block.offset + block.size);
    let one = over.next().expect("valid tables have a block over every byte");
    assert!(over.next().is_none(), "valid tables have one block over every byte");
    Ok(one)
}

/// Map: "ids of all undivided existing blocks by address into a lent row, answering their number". A
/// longer row keeps its further places.
pub fn map(lent: &Lent, row: &mut [u32]) -> Result<usize, Refusal> {
    check_tables(lent)?;
    let standing = standing_blocks(lent);
    if row.len() < standing.len() {
        return Err(ROW_TOO_SHORT);
    }
    for (place, block) in row.iter_mut().zip(&standing) {
        *place = block.id as u32;
    }
    Ok(standing.len())
}
