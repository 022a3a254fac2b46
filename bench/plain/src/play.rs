//! Playing a plan: its calls are made on a gate, and what comes of it is
//! printed.
//!
//! At each tick the import that is over ends, then the withdrawals and filings
//! of the tick are made, and then begin is called. At most ticks none of these
//! changes anything, so a play goes from one tick with an event to the next.

use std::iter::Peekable;
use std::vec::IntoIter;

use crate::gate::{Gate, Running, Turn};
use crate::limits::LAST_TICK;
use crate::plan::{Fault, Filing, Plan, Withdrawal, read_plan};
use crate::refusal::Refusal;
use crate::rows::{Row, ServerRow};
use crate::turns::Circular;
use crate::waiting::QueueOrder;

/// What is printed when the bytes are played as a plan.
pub fn play(bytes: &[u8]) -> Vec<u8> {
    let mut lines = Lines::default();
    match read_plan(bytes) {
        Ok(plan) => play_plan(&plan, &mut lines),
        Err(Fault::TooLong) => lines.word("big", &[]),
        Err(Fault::Break { line, field }) => lines.word("bad", &[line, field]),
    }
    lines.bytes
}

fn play_plan(plan: &Plan, lines: &mut Lines) {
    match Play::open(plan, lines) {
        Ok(mut play) => play.run(),
        Err((line, refusal)) => lines.no(line, refusal),
    }
}

/// The asks of a plan that are still to be made: line and ask, by their ticks.
type Asks<T> = Peekable<IntoIter<(u64, T)>>;

struct Play<'a> {
    gate: Gate<Circular>,
    rows: Vec<Row>,
    withdrawals: Asks<Withdrawal>,
    filings: Asks<Filing>,
    /// The tick at which the running import ends, or at which one can begin.
    turn: Option<u64>,
    lines: &'a mut Lines,
}

impl<'a> Play<'a> {
    /// Opens a gate on the rows of a plan, or answers the refusal and its line.
    fn open(plan: &Plan, lines: &'a mut Lines) -> Result<Self, (u64, Refusal)> {
        let mut rows = make_rows(plan)?;
        let mut gate = Gate::new(Circular::new());
        gate.open(&mut rows, QueueOrder::Arrival)
            .map_err(|refusal| (1, refusal))?;
        Ok(Play {
            gate,
            rows,
            withdrawals: by_tick(
                &plan.withdrawals,
                plan.first_withdrawal_line(),
                |withdrawal| withdrawal.tick,
            ),
            filings: by_tick(&plan.filings, plan.first_filing_line(), |filing| {
                filing.tick
            }),
            turn: None,
            lines,
        })
    }

    fn run(&mut self) {
        while let Some(tick) = self.next_tick() {
            self.end(tick);
            self.withdraw(tick);
            self.file(tick);
            self.begin(tick);
        }
    }

    /// The next tick at which something happens, up to the last tick.
    fn next_tick(&mut self) -> Option<u64> {
        let withdrawal = self.withdrawals.peek().map(|(_, ask)| ask.tick);
        let filing = self.filings.peek().map(|(_, ask)| ask.tick);
        let ticks = [self.turn, withdrawal, filing];
        let next = ticks.into_iter().flatten().min();
        next.filter(|&tick| tick <= LAST_TICK)
    }

    /// Ends the running import if its declared length is over.
    fn end(&mut self, tick: u64) {
        let Some(running) = self.gate.running() else {
            return;
        };
        if tick == running.began + running.length {
            self.end_running(running, tick);
        }
    }

    fn end_running(&mut self, running: Running, tick: u64) {
        if let Ok(ended) = self.gate.end(&mut self.rows, tick) {
            self.lines.numbers(&[
                running.lab,
                ended.number,
                running.began,
                tick,
                ended.response,
            ]);
        }
    }

    fn withdraw(&mut self, tick: u64) {
        while let Some((line, ask)) = self.withdrawals.next_if(|(_, ask)| ask.tick == tick) {
            if let Err(refusal) = self.gate.withdraw(&mut self.rows, tick, ask.number) {
                self.lines.no(line, refusal);
            }
        }
    }

    fn file(&mut self, tick: u64) {
        while let Some((line, ask)) = self.filings.next_if(|(_, ask)| ask.tick == tick) {
            let Filing {
                lab, length, due, ..
            } = ask;
            if let Err(refusal) = self.gate.file(&mut self.rows, tick, lab, length, due) {
                self.lines.no(line, refusal);
            }
        }
    }

    /// Calls begin; it is denied where the lock is held, and the turn stays.
    fn begin(&mut self, tick: u64) {
        if let Ok(turn) = self.gate.begin(&mut self.rows, tick) {
            self.turn = match turn {
                Turn::Began { length, .. } => Some(tick + length),
                Turn::Wait(until) => Some(until),
                Turn::Nothing => None,
            };
        }
    }
}

/// Makes a row of the terms of each lab.
fn make_rows(plan: &Plan) -> Result<Vec<Row>, (u64, Refusal)> {
    (plan.first_lab_line()..)
        .zip(&plan.labs)
        .map(|(line, terms)| {
            ServerRow::new(terms.rate, terms.ceiling, terms.threshold)
                .map(Row::Server)
                .map_err(|refusal| (line, refusal))
        })
        .collect()
}

/// Sorts asks by their ticks; those of one tick keep the order of the plan.
fn by_tick<T: Copy>(asks: &[T], first_line: u64, tick: impl Fn(&T) -> u64) -> Asks<T> {
    let mut sorted: Vec<(u64, T)> = (first_line..).zip(asks.iter().copied()).collect();
    sorted.sort_by_key(|(_, ask)| tick(ask));
    sorted.into_iter().peekable()
}

/// The lines that are printed.
#[derive(Default)]
struct Lines {
    bytes: Vec<u8>,
}

impl Lines {
    fn no(&mut self, line: u64, refusal: Refusal) {
        self.word("no", &[line, refusal.number()]);
    }

    /// Prints a line of a word and numbers.
    fn word(&mut self, word: &str, numbers: &[u64]) {
        self.bytes.extend_from_slice(word.as_bytes());
        for &number in numbers {
            self.bytes.push(b' ');
            self.digits(number);
        }
        self.bytes.push(b'\n');
    }

    /// Prints a line of numbers.
    fn numbers(&mut self, numbers: &[u64]) {
        for (place, &number) in numbers.iter().enumerate() {
            if place > 0 {
                self.bytes.push(b' ');
            }
            self.digits(number);
        }
        self.bytes.push(b'\n');
    }

    fn digits(&mut self, mut number: u64) {
        // No number has more than 20 digits.
        let mut digits = [0; 20];
        let mut first = digits.len();
        loop {
            first -= 1;
            digits[first] = b'0' + (number % 10) as u8;
            number /= 10;
            if number == 0 {
                break;
            }
        }
        self.bytes.extend_from_slice(&digits[first..]);
    }
}
