//! A proved import gate for one write lock, and the playing of plans.
//!
//! The library is proved and has a C header; this crate calls it safely.
//! `docs/RULES.md` has the rules that all calls keep: every number may be of
//! any size and every table of any length, every call returns, and a denied
//! call changes nothing.
//!
//! The module `foreign` has all that is unsafe.

#![deny(unsafe_code)]
#![warn(missing_docs)]

#[allow(unsafe_code)]
mod foreign;
mod gate;
mod playing;
mod refusal;
mod row;

pub use gate::{Ended, Entry, Gate, OutOfMemory, QueueOrder, Turn, Turns};
pub use playing::{PlayError, play};
pub use refusal::Refusal;
pub use row::Row;

/// The last tick; as the due tick of an import it stands for none.
pub const LAST_TICK: u64 = 1_000_000_000_000;
