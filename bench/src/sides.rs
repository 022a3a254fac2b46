//! The two implementations, each with its own table, behind one trait.

use nehpudra::{Ended, QueueOrder, Row, Turn, Turns};
use plain::{Circular, LongestUnserved, ServerRow, SpacedRow, TurnRule};

/// How many rows a table has here: more than any gate has labs.
pub const TABLE_ROWS: usize = 80;

/// An implementation of the rules with a gate and a table. Each call says how
/// many rows of the table it brings; refusals are told by their numbers.
pub trait Side: Sized {
    type Entry: Copy;

    fn new(turns: Turns) -> Self;
    /// A new gate in place of the one that is there; the table stays.
    fn renew(&mut self, turns: Turns);
    /// Puts a row into the table.
    fn put_row(&mut self, place: usize, row: Row);

    fn open(&mut self, rows: usize, order: QueueOrder) -> Result<(), u64>;
    fn file(&mut self, rows: usize, tick: u64, lab: u64, length: u64, due: u64)
    -> Result<u64, u64>;
    fn withdraw(&mut self, rows: usize, tick: u64, number: u64) -> Result<u64, u64>;
    fn begin(&mut self, rows: usize, tick: u64) -> Result<Turn, u64>;
    fn end(&mut self, rows: usize, tick: u64) -> Result<Ended, u64>;
    fn outlook(&mut self, rows: usize, lab: u64, list: &mut [Self::Entry]) -> Result<u64, u64>;

    fn entry(numbers: [u64; 3]) -> Self::Entry;
    fn numbers(entry: Self::Entry) -> [u64; 3];

    /// What can be asked of the row at a place of the table.
    fn reading(&self, place: usize) -> Reading;
    fn server_row(rate: u64, ceiling: u64, threshold: u64) -> Result<Reading, u64>;
    fn spaced_row(rate: u64) -> Result<Reading, u64>;
}

/// All that can be asked of a row. What a row does later follows from this, so
/// two rows that read alike are as good as equal, whatever they store.
#[derive(Clone, Copy, PartialEq, Eq, Debug)]
pub struct Reading {
    pub server: bool,
    pub rate: u64,
    pub ceiling: u64,
    pub threshold: u64,
    pub level: i64,
    pub able: bool,
    pub wake: u64,
}

impl From<plain::Row> for Reading {
    fn from(row: plain::Row) -> Self {
        Reading {
            server: matches!(row, plain::Row::Server(_)),
            rate: row.rate(),
            ceiling: row.ceiling(),
            threshold: row.threshold(),
            level: row.level(),
            able: row.able(),
            wake: row.wake(),
        }
    }
}

/// The plain row that holds what a host's row holds.
pub fn plain_row(row: Row) -> plain::Row {
    if row.rule != 0 {
        return plain::Row::Spaced(SpacedRow {
            rate: row.rate,
            left: row.left,
        });
    }
    plain::Row::Server(ServerRow {
        rate: row.rate,
        ceiling: row.ceiling,
        threshold: row.threshold,
        level: row.level,
        able: row.able != 0,
    })
}

/// The proved library.
pub struct Ours {
    gate: nehpudra::Gate,
    /// The table, between two rows that no call is given.
    guarded: Vec<Row>,
}

impl Ours {
    /// The table with the rows before and after it.
    pub fn guarded(&self) -> &[Row] {
        &self.guarded
    }

    /// What the row at a place of the table holds.
    pub fn stored(&self, place: usize) -> Row {
        self.guarded[1 + place]
    }

    /// Where in it the rows lie that a call was brought.
    pub fn brought(rows: usize) -> std::ops::Range<usize> {
        1..1 + rows
    }
}

fn new_gate(turns: Turns) -> nehpudra::Gate {
    nehpudra::Gate::new(turns).expect("there is memory for a gate")
}

impl Side for Ours {
    type Entry = nehpudra::Entry;

    fn new(turns: Turns) -> Self {
        Ours {
            gate: new_gate(turns),
            guarded: vec![Row::default(); TABLE_ROWS + 2],
        }
    }

    fn renew(&mut self, turns: Turns) {
        self.gate = new_gate(turns);
    }

    fn put_row(&mut self, place: usize, row: Row) {
        self.guarded[1 + place] = row;
    }

    fn open(&mut self, rows: usize, order: QueueOrder) -> Result<(), u64> {
        let table = &mut self.guarded[Self::brought(rows)];
        self.gate.open(table, order).map_err(|no| no.number())
    }

    fn file(
        &mut self,
        rows: usize,
        tick: u64,
        lab: u64,
        length: u64,
        due: u64,
    ) -> Result<u64, u64> {
        let table = &mut self.guarded[Self::brought(rows)];
        let filed = self.gate.file(table, tick, lab, length, due);
        filed.map_err(|no| no.number())
    }

    fn withdraw(&mut self, rows: usize, tick: u64, number: u64) -> Result<u64, u64> {
        let table = &mut self.guarded[Self::brought(rows)];
        let withdrawn = self.gate.withdraw(table, tick, number);
        withdrawn.map_err(|no| no.number())
    }

    fn begin(&mut self, rows: usize, tick: u64) -> Result<Turn, u64> {
        let table = &mut self.guarded[Self::brought(rows)];
        self.gate.begin(table, tick).map_err(|no| no.number())
    }

    fn end(&mut self, rows: usize, tick: u64) -> Result<Ended, u64> {
        let table = &mut self.guarded[Self::brought(rows)];
        self.gate.end(table, tick).map_err(|no| no.number())
    }

    fn outlook(&mut self, rows: usize, lab: u64, list: &mut [Self::Entry]) -> Result<u64, u64> {
        let table = &mut self.guarded[Self::brought(rows)];
        let count = self.gate.outlook(table, lab, list);
        count.map(|count| count as u64).map_err(|no| no.number())
    }

    fn entry([number, start, end]: [u64; 3]) -> Self::Entry {
        nehpudra::Entry { number, start, end }
    }

    fn numbers(entry: Self::Entry) -> [u64; 3] {
        [entry.number, entry.start, entry.end]
    }

    fn reading(&self, place: usize) -> Reading {
        plain_row(self.stored(place)).into()
    }

    fn server_row(rate: u64, ceiling: u64, threshold: u64) -> Result<Reading, u64> {
        let row = Row::server(rate, ceiling, threshold);
        row.map(|row| plain_row(row).into())
            .map_err(|no| no.number())
    }

    fn spaced_row(rate: u64) -> Result<Reading, u64> {
        let row = Row::spaced(rate);
        row.map(|row| plain_row(row).into())
            .map_err(|no| no.number())
    }
}

/// A turn rule that is chosen while the program runs, as the library's is.
pub enum AnyTurns {
    Circular(Circular),
    LongestUnserved(LongestUnserved),
}

impl From<Turns> for AnyTurns {
    fn from(turns: Turns) -> Self {
        match turns {
            Turns::Circular => AnyTurns::Circular(Circular::new()),
            Turns::LongestUnserved => AnyTurns::LongestUnserved(LongestUnserved::new()),
        }
    }
}

impl TurnRule for AnyTurns {
    fn ahead(&self, a: u64, b: u64) -> bool {
        match self {
            AnyTurns::Circular(turns) => turns.ahead(a, b),
            AnyTurns::LongestUnserved(turns) => turns.ahead(a, b),
        }
    }

    fn served(&mut self, number: u64) {
        match self {
            AnyTurns::Circular(turns) => turns.served(number),
            AnyTurns::LongestUnserved(turns) => turns.served(number),
        }
    }
}

/// The plain implementation.
pub struct Plain {
    gate: plain::Gate<AnyTurns>,
    table: Vec<plain::Row>,
}

impl Plain {
    /// Its gate, of which more can be asked than of the library's.
    pub fn gate(&self) -> &plain::Gate<AnyTurns> {
        &self.gate
    }
}

impl Side for Plain {
    type Entry = plain::Entry;

    fn new(turns: Turns) -> Self {
        Plain {
            gate: plain::Gate::new(turns.into()),
            table: vec![plain_row(Row::default()); TABLE_ROWS],
        }
    }

    fn renew(&mut self, turns: Turns) {
        self.gate = plain::Gate::new(turns.into());
    }

    fn put_row(&mut self, place: usize, row: Row) {
        self.table[place] = plain_row(row);
    }

    fn open(&mut self, rows: usize, order: QueueOrder) -> Result<(), u64> {
        let order = match order {
            QueueOrder::Arrival => plain::QueueOrder::Arrival,
            QueueOrder::Due => plain::QueueOrder::Due,
            QueueOrder::Short => plain::QueueOrder::Short,
        };
        let opened = self.gate.open(&mut self.table[..rows], order);
        opened.map_err(|no| no.number())
    }

    fn file(
        &mut self,
        rows: usize,
        tick: u64,
        lab: u64,
        length: u64,
        due: u64,
    ) -> Result<u64, u64> {
        let table = &mut self.table[..rows];
        let filed = self.gate.file(table, tick, lab, length, due);
        filed.map_err(|no| no.number())
    }

    fn withdraw(&mut self, rows: usize, tick: u64, number: u64) -> Result<u64, u64> {
        let withdrawn = self.gate.withdraw(&mut self.table[..rows], tick, number);
        withdrawn.map_err(|no| no.number())
    }

    fn begin(&mut self, rows: usize, tick: u64) -> Result<Turn, u64> {
        let turn = self.gate.begin(&mut self.table[..rows], tick);
        let turn = turn.map_err(|no| no.number())?;
        Ok(match turn {
            plain::Turn::Nothing => Turn::Nothing,
            plain::Turn::Wait(until) => Turn::Wait(until),
            plain::Turn::Began {
                lab,
                number,
                length,
            } => Turn::Began {
                lab,
                number,
                length,
            },
        })
    }

    fn end(&mut self, rows: usize, tick: u64) -> Result<Ended, u64> {
        let ended = self.gate.end(&mut self.table[..rows], tick);
        let ended = ended.map_err(|no| no.number())?;
        Ok(Ended {
            number: ended.number,
            held: ended.held,
            response: ended.response,
        })
    }

    fn outlook(&mut self, rows: usize, lab: u64, list: &mut [Self::Entry]) -> Result<u64, u64> {
        let count = self.gate.outlook(&self.table[..rows], lab, list);
        count.map_err(|no| no.number())
    }

    fn entry([number, start, end]: [u64; 3]) -> Self::Entry {
        plain::Entry { number, start, end }
    }

    fn numbers(entry: Self::Entry) -> [u64; 3] {
        [entry.number, entry.start, entry.end]
    }

    fn reading(&self, place: usize) -> Reading {
        self.table[place].into()
    }

    fn server_row(rate: u64, ceiling: u64, threshold: u64) -> Result<Reading, u64> {
        let row = ServerRow::new(rate, ceiling, threshold);
        row.map(|row| plain::Row::from(row).into())
            .map_err(|no| no.number())
    }

    fn spaced_row(rate: u64) -> Result<Reading, u64> {
        let row = SpacedRow::new(rate);
        row.map(|row| plain::Row::from(row).into())
            .map_err(|no| no.number())
    }
}
