//! What both sides are tried on: shapes, valid tables, arguments, histories and scripts.

pub mod arguments;
pub mod history;
pub mod records;
pub mod scripts;
pub mod shapes;
pub mod states;
