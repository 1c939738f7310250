//! An independent model of the pool, and what it takes to compare it with the proved library.
//!
//! `rules` and `script` follow the papers alone, and share nothing with the library but the layout of
//! the lent tables. The rest makes calls, tables and scripts, runs them on both sides and says
//! where they differ.

pub mod counts;
pub mod damage;
pub mod entry;
pub mod events;
pub mod generate;
pub mod program;
pub mod random;
pub mod rules;
pub mod script;
pub mod settings;

#[cfg(feature = "library")]
pub mod calls;
#[cfg(feature = "library")]
pub mod compare;
#[cfg(feature = "library")]
pub mod library;
