//! The gate, which decides who holds the one write lock.

use std::error::Error;
use std::fmt;

use crate::foreign::{Handle, Told};
use crate::refusal::{Refusal, granted, unnamed};
use crate::row::Row;

/// The library's own statuses, kinds of turn and their numbers.
pub(crate) const NO_MEMORY: u64 = 18;
const NOTHING: u64 = 0;
const WAIT: u64 = 1;
const BEGAN: u64 = 2;

/// Whose turn it is where several labs could begin.
#[derive(Clone, Copy, PartialEq, Eq, Debug)]
#[repr(u64)]
pub enum Turns {
    /// The order begins right behind who was served last, and goes round.
    Circular = 0,
    /// Who was served goes to the end, and nobody else moves.
    LongestUnserved = 1,
}

/// In which order the tickets of one lab wait.
#[derive(Clone, Copy, PartialEq, Eq, Debug)]
#[repr(u64)]
pub enum QueueOrder {
    /// The ticket that was filed first comes first.
    Arrival = 0,
    /// The ticket that is due soonest comes first.
    Due = 1,
    /// The ticket with the shortest declared length comes first.
    Short = 2,
}

/// What a begin answers: whose turn it is.
#[derive(Clone, Copy, PartialEq, Eq, Debug)]
pub enum Turn {
    /// No ticket waits.
    Nothing,
    /// Tickets wait, and none can begin before this tick, which may be above
    /// the last one.
    Wait(u64),
    /// An import has begun and holds the lock.
    Began {
        /// The lab whose import it is.
        lab: u64,
        /// The number of its ticket.
        number: u64,
        /// Its declared length.
        length: u64,
    },
}

/// What an end answers.
#[derive(Clone, Copy, PartialEq, Eq, Debug)]
pub struct Ended {
    /// The number of the ticket.
    pub number: u64,
    /// The ticks from begin to end.
    pub held: u64,
    /// The ticks from filing to end.
    pub response: u64,
}

/// What an outlook tells of a ticket.
#[repr(C)]
#[derive(Clone, Copy, PartialEq, Eq, Debug, Default)]
pub struct Entry {
    /// The number of the ticket.
    pub number: u64,
    /// The tick at which it will start.
    pub start: u64,
    /// The tick at which it will end.
    pub end: u64,
}

/// There is no memory for a gate.
#[derive(Clone, Copy, PartialEq, Eq, Debug)]
pub struct OutOfMemory;

impl fmt::Display for OutOfMemory {
    fn fmt(&self, f: &mut fmt::Formatter<'_>) -> fmt::Result {
        f.write_str("there is no memory for a gate")
    }
}

impl Error for OutOfMemory {}

/// Decides who holds the one write lock, and since when.
///
/// The host keeps a table of rows, one for each lab, and brings it to every
/// call.
///
/// A gate owns its memory, which is freed when the gate is dropped. It stays on
/// the thread that made it:
///
/// ```compile_fail,E0277
/// fn on_another_thread(_: impl Send) {}
/// on_another_thread(nehpudra::Gate::new(nehpudra::Turns::Circular).unwrap());
/// ```
#[derive(Debug)]
pub struct Gate {
    handle: Handle,
}

impl Gate {
    /// A gate that is still to be opened.
    pub fn new(turns: Turns) -> Result<Gate, OutOfMemory> {
        let (handle, status) = Handle::new(turns as u64);
        match status {
            0 => Ok(Gate { handle }),
            NO_MEMORY => Err(OutOfMemory),
            _ => unnamed(status),
        }
    }

    /// Begins anew with a lab for each row: rows restart, the clock is at 0, the
    /// lock is free and no ticket waits.
    pub fn open(&mut self, rows: &mut [Row], order: QueueOrder) -> Result<(), Refusal> {
        granted(self.handle.open(rows, order as u64))
    }

    /// Files an import of a lab, and answers the number of its ticket.
    /// [`LAST_TICK`](crate::LAST_TICK) as the due tick stands for none.
    pub fn file(
        &mut self,
        rows: &mut [Row],
        tick: u64,
        lab: u64,
        length: u64,
        due: u64,
    ) -> Result<u64, Refusal> {
        number(self.handle.file(rows, tick, lab, length, due))
    }

    /// Takes out a waiting ticket, and answers its lab.
    pub fn withdraw(&mut self, rows: &mut [Row], tick: u64, number: u64) -> Result<u64, Refusal> {
        self::number(self.handle.withdraw(rows, tick, number))
    }

    /// Begins the next import, if one can begin.
    pub fn begin(&mut self, rows: &mut [Row], tick: u64) -> Result<Turn, Refusal> {
        let told = self.handle.begin(rows, tick);
        granted(told.status)?;
        Ok(match told.kind {
            NOTHING => Turn::Nothing,
            WAIT => Turn::Wait(told.until),
            BEGAN => Turn::Began {
                lab: told.lab,
                number: told.number,
                length: told.length,
            },
            kind => panic!("the library answered turn {kind}, which its header does not name"),
        })
    }

    /// Frees the lock.
    pub fn end(&mut self, rows: &mut [Row], tick: u64) -> Result<Ended, Refusal> {
        let told = self.handle.end(rows, tick);
        granted(told.status)?;
        Ok(Ended {
            number: told.number,
            held: told.held,
            response: told.response,
        })
    }

    /// Foretells when the waiting tickets of a lab will run, at the head of the
    /// list, and answers how many they are.
    pub fn outlook(
        &mut self,
        rows: &[Row],
        lab: u64,
        list: &mut [Entry],
    ) -> Result<usize, Refusal> {
        let count = number(self.handle.outlook(rows, lab, list))?;
        Ok(count as usize)
    }
}

fn number(told: Told) -> Result<u64, Refusal> {
    granted(told.status)?;
    Ok(told.number)
}
