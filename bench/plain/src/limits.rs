//! The limits of all numbers.

/// The last tick; the first is 0.
pub const LAST_TICK: u64 = 1_000_000_000_000;

/// The least rate of a row.
pub const LEAST_RATE: u64 = 1;

/// The greatest rate of a row.
pub const GREATEST_RATE: u64 = 999;

/// The rate that the whole lock has: a thousand thousandths.
pub const WHOLE_RATE: u64 = 1000;

/// The greatest ceiling of a row.
pub const GREATEST_CEILING: u64 = 1_000_000_000;

/// The most labs, and so the most rows of a table.
pub const MOST_LABS: usize = 64;

/// The most waiting tickets of one lab.
pub const MOST_WAITING: usize = 16;

/// The least declared length of an import.
pub const LEAST_LENGTH: u64 = 1;

/// The greatest declared length of an import.
pub const GREATEST_LENGTH: u64 = 1_000_000;

/// The most that the rates of a table may add up to.
pub const GREATEST_RATE_SUM: u64 = 900;

/// The most tickets that are given between two openings.
pub const MOST_TICKETS: u64 = 1_000_000_000_000;

/// The most filings of a plan.
pub const MOST_FILINGS: usize = 1024;

/// The most withdrawals of a plan.
pub const MOST_WITHDRAWALS: usize = 256;

/// The most bytes of a plan.
pub const MOST_PLAN_BYTES: usize = 65_536;
