//! Budget rows, which are plain values of the host.

use crate::foreign;
use crate::refusal::{Refusal, granted};

/// The budget row of one lab.
///
/// A host may store anything in it: a number out of its range is read as the
/// nearest lawful one.
#[repr(C)]
#[derive(Clone, Copy, PartialEq, Eq, Debug, Default)]
pub struct Row {
    /// 0 for a server row, and else a spaced row.
    pub rule: u64,
    /// Thousandths of a tick per tick.
    pub rate: u64,
    /// Of a server row: what the level is cut at, in thousandths of a tick.
    pub ceiling: u64,
    /// Of a server row: the level at which a row becomes able again.
    pub threshold: u64,
    /// Of a server row: what is saved up, or owed where it is negative.
    pub level: i64,
    /// Of a server row: a mark, 0 for not able, and else able.
    pub able: u64,
    /// Of a spaced row: the ticks left of the pause.
    pub left: u64,
}

impl Row {
    /// A server row at its beginning, or refusal 1, 2 or 3.
    pub fn server(rate: u64, ceiling: u64, threshold: u64) -> Result<Row, Refusal> {
        let mut row = Row::default();
        granted(foreign::server_row(&mut row, rate, ceiling, threshold))?;
        Ok(row)
    }

    /// A spaced row at its beginning, or refusal 1.
    pub fn spaced(rate: u64) -> Result<Row, Refusal> {
        let mut row = Row::default();
        granted(foreign::spaced_row(&mut row, rate))?;
        Ok(row)
    }
}
