//! Calls with all that they are given, which can be made on either side.

use nehpudra::{Ended, QueueOrder, Row, Turn, Turns};

use crate::sides::{Reading, Side};

/// A call, or what a host does between two calls.
#[derive(Clone, Debug)]
pub enum Call {
    /// The gate is given up for a new one.
    New(Turns),
    /// The host exchanges the whole table.
    ExchangeTable(Vec<Row>),
    /// The host exchanges one row.
    ExchangeRow {
        place: usize,
        row: Row,
    },
    ServerRow {
        rate: u64,
        ceiling: u64,
        threshold: u64,
    },
    SpacedRow {
        rate: u64,
    },
    Open {
        rows: usize,
        order: QueueOrder,
    },
    File {
        rows: usize,
        tick: u64,
        lab: u64,
        length: u64,
        due: u64,
    },
    Withdraw {
        rows: usize,
        tick: u64,
        number: u64,
    },
    Begin {
        rows: usize,
        tick: u64,
    },
    End {
        rows: usize,
        tick: u64,
    },
    Outlook {
        rows: usize,
        lab: u64,
        places: usize,
    },
}

/// What came of a call.
#[derive(Clone, PartialEq, Eq, Debug)]
pub struct Answer {
    pub outcome: Result<Granted, u64>,
    /// Of an outlook: the list, with entries that it was not given before and
    /// after it.
    pub list: Vec<[u64; 3]>,
}

#[derive(Clone, Copy, PartialEq, Eq, Debug)]
pub enum Granted {
    Done,
    Number(u64),
    Turn(Turn),
    Ended(Ended),
    Row(Reading),
}

/// The most places of a list, and the entries around it that no call is given.
pub const MOST_PLACES: usize = 20;
const GUARDS: usize = 2;

impl Call {
    pub fn make<S: Side>(&self, side: &mut S) -> Answer {
        let outcome = match *self {
            Call::Outlook { rows, lab, places } => return outlook(side, rows, lab, places),
            Call::New(_) | Call::ExchangeTable(_) | Call::ExchangeRow { .. } => {
                self.prepare(side);
                Ok(Granted::Done)
            }
            Call::ServerRow {
                rate,
                ceiling,
                threshold,
            } => S::server_row(rate, ceiling, threshold).map(Granted::Row),
            Call::SpacedRow { rate } => S::spaced_row(rate).map(Granted::Row),
            Call::Open { rows, order } => side.open(rows, order).map(|()| Granted::Done),
            Call::File {
                rows,
                tick,
                lab,
                length,
                due,
            } => side.file(rows, tick, lab, length, due).map(Granted::Number),
            Call::Withdraw { rows, tick, number } => {
                side.withdraw(rows, tick, number).map(Granted::Number)
            }
            Call::Begin { rows, tick } => side.begin(rows, tick).map(Granted::Turn),
            Call::End { rows, tick } => side.end(rows, tick).map(Granted::Ended),
        };
        Answer {
            outcome,
            list: Vec::new(),
        }
    }

    fn prepare<S: Side>(&self, side: &mut S) {
        match self {
            Call::New(turns) => side.renew(*turns),
            Call::ExchangeRow { place, row } => side.put_row(*place, *row),
            Call::ExchangeTable(rows) => {
                for (place, row) in rows.iter().enumerate() {
                    side.put_row(place, *row);
                }
            }
            _ => {}
        }
    }

    /// Whether the library is asked something that is answered.
    pub fn is_compared(&self) -> bool {
        !matches!(
            self,
            Call::New(_) | Call::ExchangeTable(_) | Call::ExchangeRow { .. }
        )
    }

    /// How many rows may be other ones afterwards.
    pub fn rows(&self) -> usize {
        match *self {
            Call::Open { rows, .. }
            | Call::File { rows, .. }
            | Call::Withdraw { rows, .. }
            | Call::Begin { rows, .. }
            | Call::End { rows, .. } => rows,
            _ => 0,
        }
    }
}

fn outlook<S: Side>(side: &mut S, rows: usize, lab: u64, places: usize) -> Answer {
    // Entries that no outlook tells, each another one.
    let mut entries: [S::Entry; MOST_PLACES + 2 * GUARDS] =
        std::array::from_fn(|place| S::entry([u64::MAX - place as u64, place as u64, 0]));
    let list = &mut entries[GUARDS..GUARDS + places];
    let outcome = side.outlook(rows, lab, list).map(Granted::Number);
    Answer {
        outcome,
        list: entries.iter().map(|&entry| S::numbers(entry)).collect(),
    }
}
