//! Why a call is denied.

use std::error::Error;
use std::fmt;

/// Why a call is denied; a denied call changes nothing.
#[derive(Clone, Copy, Debug, PartialEq, Eq, Hash)]
#[repr(u8)]
pub enum Refusal {
    /// The rate of a row is not 1 to 999.
    RateOutOfRange = 1,
    /// The ceiling of a row is above 1,000,000,000.
    CeilingOutOfRange = 2,
    /// The threshold of a row is above its ceiling.
    ThresholdAboveCeiling = 3,
    /// A table has not 1 to 64 rows.
    LabCountOutOfRange = 4,
    /// The rates of a table add up to more than 900.
    RateSumTooLarge = 5,
    /// A table has not one row for each lab.
    TableMismatch = 6,
    /// A tick is below the clock or above the last tick.
    TickOutOfRange = 7,
    /// There is no such lab.
    NoSuchLab = 8,
    /// A declared length is not 1 to 1,000,000.
    LengthOutOfRange = 9,
    /// A due tick is below the filing tick or above the last tick.
    DueOutOfRange = 10,
    /// The lab has 16 tickets waiting.
    QueueFull = 11,
    /// All tickets that there are were given.
    TicketsExhausted = 12,
    /// No waiting ticket has the number.
    NoSuchTicket = 13,
    /// The lock is held.
    LockHeld = 14,
    /// The lock is free.
    LockFree = 15,
    /// A list has fewer places than there are answers.
    ListTooShort = 16,
}

impl Refusal {
    /// The number of the refusal, 1 to 16.
    pub fn number(self) -> u64 {
        self as u64
    }
}

impl fmt::Display for Refusal {
    fn fmt(&self, f: &mut fmt::Formatter<'_>) -> fmt::Result {
        write!(f, "refusal {}: {self:?}", self.number())
    }
}

impl Error for Refusal {}

/// Answers the refusal unless the condition holds.
pub(crate) fn require(condition: bool, refusal: Refusal) -> Result<(), Refusal> {
    if condition { Ok(()) } else { Err(refusal) }
}
