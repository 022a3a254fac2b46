//! Gates in a known state, to which they are brought back after each call.

use nehpudra::{LAST_TICK, QueueOrder, Row, Turn};

use crate::measure::TURNS;
use crate::random::Random;
use crate::sides::Side;

/// A call that is timed.
#[derive(Clone, Copy, PartialEq, Eq)]
pub enum Timed {
    Open,
    File,
    Withdraw,
    Begin,
    BeginWaits,
    End,
    Outlook,
}

impl Timed {
    pub const ALL: [Timed; 7] = [
        Timed::Open,
        Timed::File,
        Timed::Withdraw,
        Timed::Begin,
        Timed::BeginWaits,
        Timed::End,
        Timed::Outlook,
    ];

    pub fn name(self) -> &'static str {
        match self {
            Timed::Open => "open",
            Timed::File => "file",
            Timed::Withdraw => "withdraw",
            Timed::Begin => "begin",
            Timed::BeginWaits => "begin, wait",
            Timed::End => "end",
            Timed::Outlook => "outlook",
        }
    }
}

/// The most tickets that a lab has waiting.
const MOST_WAITING: u64 = 16;

/// A gate, and what the next call on it is given.
pub struct Bed<S: Side> {
    side: S,
    random: Random,
    rows: Vec<Row>,
    /// How many tickets each lab has waiting before a call.
    waiting: u64,
    clock: u64,
    tickets: Vec<u64>,
    /// Where among the tickets the one is that is withdrawn.
    place: usize,
    lab: u64,
    length: u64,
    list: Vec<S::Entry>,
    /// What the latest timed call answered: a number, or a refusal's.
    answer: Option<Result<u64, u64>>,
}

impl<S: Side> Bed<S> {
    pub fn new(random: Random, timed: Timed, labs: usize, waiting: u64) -> Self {
        let row = if timed == Timed::BeginWaits {
            waiting_row
        } else {
            able_row
        };
        let mut bed = Bed {
            side: S::new(TURNS),
            random,
            rows: (0..labs).map(|lab| row(lab, labs)).collect(),
            waiting,
            clock: 0,
            tickets: Vec::new(),
            place: 0,
            lab: 0,
            length: 1,
            list: vec![S::entry([0; 3]); MOST_WAITING as usize],
            answer: None,
        };
        bed.put_rows();
        bed.open().expect("these rows can be opened together");
        // The preparation of an open fills the queues each time.
        if timed != Timed::Open {
            bed.fill();
        }
        bed
    }

    pub fn answer(&self) -> Option<Result<u64, u64>> {
        self.answer
    }

    fn open(&mut self) -> Result<(), u64> {
        self.side.open(self.rows.len(), QueueOrder::Short)
    }

    fn put_rows(&mut self) {
        for (place, row) in self.rows.iter().enumerate() {
            self.side.put_row(place, *row);
        }
    }

    /// Files until each lab has as many tickets as are wanted.
    fn fill(&mut self) {
        self.tickets.clear();
        for _ in 0..self.waiting {
            for lab in 0..self.rows.len() as u64 {
                let number = self.file(lab);
                self.tickets.push(number);
            }
        }
    }

    fn file(&mut self, lab: u64) -> u64 {
        let length = self.random.within(1, 1_000);
        let labs = self.rows.len();
        let filed = self.side.file(labs, self.clock, lab, length, LAST_TICK);
        filed.expect("the lab has room for a ticket")
    }

    /// Undoes what the latest call did, and chooses what the next is given.
    pub fn prepare(&mut self, timed: Timed) {
        let answer = self.answer.take();
        if let Some(answer) = answer {
            let denied = match timed {
                Timed::File => self.waiting == MOST_WAITING,
                Timed::Withdraw => self.waiting == 0,
                _ => false,
            };
            assert_eq!(answer.is_err(), denied, "the call that is meant is timed");
        }
        self.put_rows();
        self.undo(timed, answer.and_then(Result::ok));
        let labs = self.rows.len() as u64;
        self.lab = self.random.below(labs);
        self.length = self.random.within(1, 1_000);
        self.place = self.random.below(self.tickets.len().max(1) as u64) as usize;
    }

    fn undo(&mut self, timed: Timed, granted: Option<u64>) {
        let labs = self.rows.len();
        match (timed, granted) {
            (Timed::Open, _) => {
                self.clock = 0;
                self.fill();
            }
            (Timed::File, Some(number)) => {
                let lab = self.side.withdraw(labs, self.clock, number);
                assert_eq!(lab, Ok(self.lab));
            }
            (Timed::Withdraw, Some(lab)) => self.tickets[self.place] = self.file(lab),
            (Timed::Begin, Some(lab)) if self.waiting > 0 => {
                self.side
                    .end(labs, self.clock)
                    .expect("an import has begun");
                self.file(lab);
                self.put_rows();
            }
            (Timed::End, _) => self.start(),
            _ => {}
        }
    }

    /// Lets an import begin besides the tickets that are to wait.
    fn start(&mut self) {
        if self.waiting == 0 {
            self.file(self.lab);
        }
        let Ok(Turn::Began { lab, .. }) = self.side.begin(self.rows.len(), self.clock) else {
            panic!("an able lab has a ticket waiting");
        };
        if self.waiting > 0 {
            self.file(lab);
        }
    }

    /// The call that is timed.
    #[inline]
    pub fn call(&mut self, timed: Timed) {
        let labs = self.rows.len();
        let (lab, next) = (self.lab, self.clock + 1);
        self.clock = next;
        let side = &mut self.side;
        self.answer = Some(match timed {
            Timed::Open => side.open(labs, QueueOrder::Short).map(|()| 0),
            Timed::File => side.file(labs, next, lab, self.length, LAST_TICK),
            Timed::Withdraw => {
                let number = self.tickets.get(self.place).copied();
                side.withdraw(labs, next, number.unwrap_or(1))
            }
            Timed::Begin | Timed::BeginWaits => side.begin(labs, next).map(|turn| match turn {
                Turn::Nothing => 0,
                Turn::Wait(until) => until,
                Turn::Began { lab, .. } => lab,
            }),
            Timed::End => side.end(labs, next).map(|ended| ended.number),
            Timed::Outlook => side.outlook(labs, lab, &mut self.list),
        });
    }
}

/// A row with an even share of the rates, by turns of both rules.
fn row(lab: usize, labs: usize) -> Row {
    Row {
        rule: lab as u64 % 2,
        rate: (900 / labs as u64).min(200),
        ceiling: 1_000_000,
        threshold: 1_000,
        ..Row::default()
    }
}

fn able_row(lab: usize, labs: usize) -> Row {
    Row {
        level: 500_000,
        able: 1,
        ..row(lab, labs)
    }
}

fn waiting_row(lab: usize, labs: usize) -> Row {
    Row {
        level: -1_000_000,
        left: 1_000_000,
        ..row(lab, labs)
    }
}
