//! Rows that keep the budgets of labs, rules that say whose turn it is, a gate
//! that decides who holds the one write lock, and plans that are played on it.
//!
//! Time is counted in whole ticks. Levels, ceilings and thresholds are in
//! thousandths of a tick, rates in thousandths of a tick per tick.

#![forbid(unsafe_code)]
#![warn(missing_docs)]

pub mod gate;
pub mod limits;
pub mod plan;
pub mod play;
pub mod refusal;
pub mod rows;
pub mod turns;
mod waiting;

pub use gate::{Ended, Entry, Gate, Running, Turn};
pub use plan::{Fault, Filing, Plan, Terms, Withdrawal, read_plan};
pub use play::play;
pub use refusal::Refusal;
pub use rows::{Row, ServerRow, SpacedRow};
pub use turns::{Circular, LongestUnserved, TurnRule};
pub use waiting::QueueOrder;
