//! The rules of the pool, after document 01 alone.
//!
//! Everything here is plain rather than quick: each rule is one function, in the paper's words and in
//! the paper's order, on the same flat tables that the library is lent.

pub mod answers;
pub mod calls;
pub mod go_on;
pub mod lent;
pub mod questions;
pub mod shape;
pub mod valid;

use answers::{Refusal, NOT_VALID, SHAPE_NOT_ALLOWED, WRONG_LENGTH};
use lent::Lent;

/// Refusals 1 and 2: the shape is allowed, and each lent table has its length.
pub fn check_lengths(lent: &Lent) -> Result<(), Refusal> {
    if !lent.shape.allowed() {
        return Err(SHAPE_NOT_ALLOWED);
    }
    if !lent.lengths_right() {
        return Err(WRONG_LENGTH);
    }
    Ok(())
}

/// Refusals 1 to 3: those, and the tables are a valid state.
pub fn check_tables(lent: &Lent) -> Result<(), Refusal> {
    check_lengths(lent)?;
    if !valid::valid(lent) {
        return Err(NOT_VALID);
    }
    Ok(())
}
