#![cfg_attr(feature = "alloc", doc = include_str!("../README.md"))]
#![cfg_attr(not(feature = "alloc"), doc = "The proved pool on tables that the caller lends: built without the feature `alloc`.")]
#![no_std]
#![deny(missing_docs)]
#![deny(unsafe_code)]

#[cfg(feature = "alloc")]
extern crate alloc;

mod answer;
#[allow(unsafe_code)]
#[rustfmt::skip] // a table's pointer and its length stand on one line
mod boundary;
mod device;
mod held;
mod id;
#[cfg(feature = "alloc")]
mod pool;
mod questions;
mod refusal;
mod shape;
mod state;
mod tables;

pub use answer::Answer;
pub use device::{Device, Millis};
pub use held::Held;
pub use id::Id;
#[cfg(feature = "alloc")]
pub use pool::Pool;
pub use questions::{Bytes, Keeper};
pub use refusal::Refusal;
pub use shape::{Lengths, Shape};
pub use state::{Covered, State};
pub use tables::{Tables, View};
