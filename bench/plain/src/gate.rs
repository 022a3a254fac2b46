//! The gate: it decides who holds the one write lock, and since when.
//!
//! The rows are the host's, which brings its table to every call. A call is
//! checked first, in a fixed order, and the first check that fails answers its
//! refusal; then nothing has changed, neither in the gate nor in the rows.

use crate::limits::{
    GREATEST_LENGTH, GREATEST_RATE_SUM, LAST_TICK, LEAST_LENGTH, MOST_LABS, MOST_TICKETS,
    MOST_WAITING,
};
use crate::refusal::{Refusal, require};
use crate::rows::Row;
use crate::turns::TurnRule;
use crate::waiting::{QueueOrder, Ticket, Waiting};

/// What a begin answers: whose turn it is.
#[derive(Clone, Copy, Debug, PartialEq, Eq)]
pub enum Turn {
    /// An import began and holds the lock.
    Began {
        /// The lab whose import it is.
        lab: u64,
        /// The number of its ticket.
        number: u64,
        /// Its declared length.
        length: u64,
    },
    /// Tickets wait but no lab may begin before this tick.
    Wait(u64),
    /// No ticket waits.
    Nothing,
}

/// What an end answers.
#[derive(Clone, Copy, Debug, PartialEq, Eq)]
pub struct Ended {
    /// The number of the ticket.
    pub number: u64,
    /// The ticks from begin to end.
    pub held: u64,
    /// The ticks from filing to end.
    pub response: u64,
}

/// One line of an outlook: when a waiting ticket will run.
#[derive(Clone, Copy, Debug, Default, PartialEq, Eq)]
pub struct Entry {
    /// The number of the ticket.
    pub number: u64,
    /// The tick at which it will start.
    pub start: u64,
    /// The tick at which it will end.
    pub end: u64,
}

/// The import that holds the lock.
#[derive(Clone, Copy, Debug, PartialEq, Eq)]
pub struct Running {
    /// The lab whose import it is.
    pub lab: u64,
    /// The number of its ticket.
    pub number: u64,
    /// Its declared length.
    pub length: u64,
    /// The tick at which its ticket was filed.
    pub filed: u64,
    /// The tick at which it began.
    pub began: u64,
}

/// Decides who holds the one write lock, and since when.
#[derive(Clone, Debug, PartialEq, Eq)]
pub struct Gate<T: TurnRule> {
    turns: T,
    order: QueueOrder,
    clock: u64,
    given: u64,
    waiting: Waiting,
    running: Option<Running>,
}

impl<T: TurnRule> Gate<T> {
    /// A gate without labs, with clock 0 and a free lock.
    pub fn new(turns: T) -> Self {
        Gate {
            turns,
            order: QueueOrder::default(),
            clock: 0,
            given: 0,
            waiting: Waiting::new(),
            running: None,
        }
    }

    /// Begins anew with a lab for each row; only the turn rule stays as it is.
    pub fn open(&mut self, rows: &mut [Row], order: QueueOrder) -> Result<(), Refusal> {
        let lab_count = (1..=MOST_LABS).contains(&rows.len());
        require(lab_count, Refusal::LabCountOutOfRange)?;
        let rates: u64 = rows.iter().map(Row::rate).sum();
        require(rates <= GREATEST_RATE_SUM, Refusal::RateSumTooLarge)?;

        rows.iter_mut().for_each(Row::restart);
        self.order = order;
        self.clock = 0;
        self.given = 0;
        self.waiting.reset(rows.len());
        self.running = None;
        Ok(())
    }

    /// Files an import of a lab and answers the number of its ticket.
    pub fn file(
        &mut self,
        rows: &mut [Row],
        tick: u64,
        lab: u64,
        length: u64,
        due: u64,
    ) -> Result<u64, Refusal> {
        self.check_call(rows, tick)?;
        let lab = self.check_lab(lab)?;
        let lawful_length = (LEAST_LENGTH..=GREATEST_LENGTH).contains(&length);
        require(lawful_length, Refusal::LengthOutOfRange)?;
        let lawful_due = (tick..=LAST_TICK).contains(&due);
        require(lawful_due, Refusal::DueOutOfRange)?;
        let has_place = self.waiting.count(lab) < MOST_WAITING;
        require(has_place, Refusal::QueueFull)?;
        require(self.given < MOST_TICKETS, Refusal::TicketsExhausted)?;

        self.pass_to(rows, tick);
        self.given += 1;
        let ticket = Ticket {
            key: self.order.key(length, due),
            number: self.given,
            length,
            filed: tick,
        };
        self.waiting.put(lab, ticket);
        Ok(ticket.number)
    }

    /// Takes a waiting ticket back and answers its lab.
    pub fn withdraw(&mut self, rows: &mut [Row], tick: u64, number: u64) -> Result<u64, Refusal> {
        self.check_call(rows, tick)?;
        let lab = self.waiting.withdraw(number).ok_or(Refusal::NoSuchTicket)?;

        self.pass_to(rows, tick);
        Ok(lab as u64)
    }

    /// Begins the import whose turn it is, if there is one.
    pub fn begin(&mut self, rows: &mut [Row], tick: u64) -> Result<Turn, Refusal> {
        self.check_call(rows, tick)?;
        require(self.running.is_none(), Refusal::LockHeld)?;

        self.pass_to(rows, tick);
        if let Some(lab) = self.leader(rows)
            && let Some(ticket) = self.waiting.take(lab)
        {
            return Ok(self.start(lab as u64, ticket));
        }
        Ok(match self.smallest_wake(rows) {
            Some(wake) => Turn::Wait(tick + wake),
            None => Turn::Nothing,
        })
    }

    /// Ends the running import and tells the row of its lab.
    pub fn end(&mut self, rows: &mut [Row], tick: u64) -> Result<Ended, Refusal> {
        self.check_call(rows, tick)?;
        let running = self.running.ok_or(Refusal::LockFree)?;

        self.pass_to(rows, tick);
        self.running = None;
        let held = tick - running.began;
        // A host may have brought another row, which then may answer no: the
        // end is granted all the same.
        rows[running.lab as usize].ended(held);
        Ok(Ended {
            number: running.number,
            held,
            response: tick - running.filed,
        })
    }

    /// Writes when the waiting tickets of a lab will run, and answers how many.
    pub fn outlook(&self, rows: &[Row], lab: u64, list: &mut [Entry]) -> Result<u64, Refusal> {
        self.check_table(rows)?;
        let lab = self.check_lab(lab)?;
        require(self.running.is_none(), Refusal::LockHeld)?;
        let queue = self.waiting.queue(lab);
        require(list.len() >= queue.len(), Refusal::ListTooShort)?;

        let mut row = rows[lab];
        let mut tick = self.clock;
        for (entry, ticket) in list.iter_mut().zip(queue) {
            *entry = next_entry(&mut row, tick, ticket);
            tick = entry.end;
        }
        Ok(queue.len() as u64)
    }

    /// The tick of the latest granted call.
    pub fn clock(&self) -> u64 {
        self.clock
    }

    /// How many labs there are.
    pub fn labs(&self) -> u64 {
        self.waiting.labs() as u64
    }

    /// The import that holds the lock.
    pub fn running(&self) -> Option<Running> {
        self.running
    }

    /// How many tickets wait for a lab; none where there is no such lab.
    pub fn count_waiting(&self, lab: u64) -> u64 {
        match self.check_lab(lab) {
            Ok(lab) => self.waiting.count(lab) as u64,
            Err(_) => 0,
        }
    }

    fn check_call(&self, rows: &[Row], tick: u64) -> Result<(), Refusal> {
        self.check_table(rows)?;
        let lawful_tick = (self.clock..=LAST_TICK).contains(&tick);
        require(lawful_tick, Refusal::TickOutOfRange)
    }

    fn check_table(&self, rows: &[Row]) -> Result<(), Refusal> {
        require(rows.len() == self.waiting.labs(), Refusal::TableMismatch)
    }

    fn check_lab(&self, lab: u64) -> Result<usize, Refusal> {
        require(lab < self.waiting.labs() as u64, Refusal::NoSuchLab)?;
        Ok(lab as usize)
    }

    /// Lets all rows rest up to the tick, but not the one that holds the lock.
    fn pass_to(&mut self, rows: &mut [Row], tick: u64) {
        let ticks = tick - self.clock;
        self.clock = tick;
        if ticks == 0 {
            return;
        }
        let holder = self.running.map(|running| running.lab as usize);
        for (lab, row) in rows.iter_mut().enumerate() {
            if Some(lab) != holder {
                row.rest(ticks);
            }
        }
    }

    /// The lab that stands ahead of all others that stand.
    fn leader(&self, rows: &[Row]) -> Option<usize> {
        self.waiting
            .labs_with_tickets()
            .filter(|&lab| rows[lab].able())
            .reduce(|best, lab| {
                if self.turns.ahead(lab as u64, best as u64) {
                    lab
                } else {
                    best
                }
            })
    }

    fn smallest_wake(&self, rows: &[Row]) -> Option<u64> {
        self.waiting
            .labs_with_tickets()
            .map(|lab| rows[lab].wake())
            .min()
    }

    /// Gives the lock to the ticket of a lab, at the clock.
    fn start(&mut self, lab: u64, ticket: Ticket) -> Turn {
        let Ticket { number, length, .. } = ticket;
        self.running = Some(Running {
            lab,
            number,
            length,
            filed: ticket.filed,
            began: self.clock,
        });
        self.turns.served(lab);
        Turn::Began {
            lab,
            number,
            length,
        }
    }
}

/// Lets the row rest for its wake and run as declared, from a tick on.
fn next_entry(row: &mut Row, tick: u64, ticket: &Ticket) -> Entry {
    let wake = row.wake();
    row.rest_long(wake);
    row.ended(ticket.length);
    let start = tick + wake;
    Entry {
        number: ticket.number,
        start,
        end: start + ticket.length,
    }
}

#[cfg(test)]
mod tests {
    use super::*;
    use crate::rows::SpacedRow;
    use crate::turns::Circular;

    #[test]
    fn the_last_ticket_is_given_and_then_none() {
        let mut rows = [Row::Spaced(SpacedRow::new(100).unwrap())];
        let mut gate = Gate::new(Circular::new());
        gate.open(&mut rows, QueueOrder::Arrival).unwrap();
        gate.given = MOST_TICKETS - 1;
        assert_eq!(gate.file(&mut rows, 0, 0, 1, 0), Ok(MOST_TICKETS));

        let denied = Err(Refusal::TicketsExhausted);
        let before = gate.clone();
        assert_eq!(gate.file(&mut rows, 5, 0, 1, 5), denied);
        assert_eq!(gate, before);

        // That the lab's queue is full is asked before.
        gate.given = 0;
        for _ in 0..15 {
            gate.file(&mut rows, 0, 0, 1, 0).unwrap();
        }
        gate.given = MOST_TICKETS;
        let denied = Err(Refusal::QueueFull);
        assert_eq!(gate.file(&mut rows, 5, 0, 1, 5), denied);
    }
}
