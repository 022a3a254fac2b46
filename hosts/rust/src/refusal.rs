//! Why a call is denied.

use std::error::Error;
use std::fmt;

use Refusal::*;

/// Why a call is denied; a denied call changes nothing.
#[derive(Clone, Copy, PartialEq, Eq, Hash, Debug)]
#[repr(u64)]
pub enum Refusal {
    /// The rate of a row is not 1 to 999.
    RateOutOfRange = 1,
    /// The ceiling of a row is above 1,000,000,000.
    CeilingOutOfRange = 2,
    /// The threshold of a row is above its ceiling.
    ThresholdAboveCeiling = 3,
    /// A table has not 1 to 64 rows.
    LabCountOutOfRange = 4,
    /// The rates of a table add up to more than 900.
    RateSumTooLarge = 5,
    /// A table has not one row for each lab.
    TableMismatch = 6,
    /// A tick is below the clock or above the last tick.
    TickOutOfRange = 7,
    /// There is no such lab.
    NoSuchLab = 8,
    /// A declared length is not 1 to 1,000,000.
    LengthOutOfRange = 9,
    /// A due tick is below the filing tick or above the last tick.
    DueOutOfRange = 10,
    /// The lab has 16 tickets waiting.
    QueueFull = 11,
    /// 1,000,000,000,000 tickets were given.
    TicketsExhausted = 12,
    /// No waiting ticket has the number.
    NoSuchTicket = 13,
    /// The lock is held.
    LockHeld = 14,
    /// The lock is free.
    LockFree = 15,
    /// A list has fewer places than there are answers.
    ListTooShort = 16,
}

impl Refusal {
    /// All refusals, by their numbers.
    pub const ALL: [Refusal; 16] = [
        RateOutOfRange,
        CeilingOutOfRange,
        ThresholdAboveCeiling,
        LabCountOutOfRange,
        RateSumTooLarge,
        TableMismatch,
        TickOutOfRange,
        NoSuchLab,
        LengthOutOfRange,
        DueOutOfRange,
        QueueFull,
        TicketsExhausted,
        NoSuchTicket,
        LockHeld,
        LockFree,
        ListTooShort,
    ];

    /// The number of the refusal, 1 to 16.
    pub fn number(self) -> u64 {
        self as u64
    }
}

impl fmt::Display for Refusal {
    fn fmt(&self, f: &mut fmt::Formatter<'_>) -> fmt::Result {
        write!(f, "refusal {}: {self:?}", self.number())
    }
}

impl Error for Refusal {}

/// What a status says that is 0 or the number of a refusal.
pub(crate) fn granted(status: u64) -> Result<(), Refusal> {
    if status == 0 {
        return Ok(());
    }
    match Refusal::ALL
        .iter()
        .find(|refusal| refusal.number() == status)
    {
        Some(&refusal) => Err(refusal),
        None => unnamed(status),
    }
}

/// For a status that the header does not name for a call: no caller can do
/// anything about it.
pub(crate) fn unnamed(status: u64) -> ! {
    panic!("the library answered status {status}, which its header does not name for this call")
}
