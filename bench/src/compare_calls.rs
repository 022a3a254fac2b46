//! Makes the same calls on both sides and compares all that can be seen.

use std::fmt::Write;

use nehpudra::{Row, Turns};

use crate::calls::{Answer, Call};
use crate::caught::caught;
use crate::random::Random;
use crate::shorten::shortened;
use crate::sides::{Ours, Plain, Reading, Side, TABLE_ROWS};
use crate::successions::{MIXES, Succession};
use crate::tallies::Tally;

/// Compares so many calls at least, and prints counts; or tells a difference.
pub fn compare(calls: u64, seed: u64) -> Result<(), String> {
    let mut tally = Tally::default();
    let mut number = 0;
    while tally.calls() < calls {
        succession(seed, number, &mut tally)?;
        number += 1;
    }
    println!(
        "Compared {} calls in {number} successions of seed {seed}: no difference.\n",
        tally.calls()
    );
    tally.print();
    println!();
    match tally.missing() {
        missing if missing.is_empty() => Ok(()),
        missing => Err(missing.join("\n")),
    }
}

/// Compares the succession with the number.
fn succession(seed: u64, number: u64, tally: &mut Tally) -> Result<(), String> {
    let mix = number as usize % MIXES.len();
    let mut succession = Succession::new(Random::new(seed, number), &MIXES[mix]);
    let turns = succession.turns();
    let mut pair = Pair::new(turns);
    let mut made = Vec::new();
    for _ in 0..succession.length() {
        let call = succession.next(pair.plain.gate());
        made.push(call.clone());
        let answer = pair.make(&call).map_err(|difference| {
            let name = MIXES[mix].name;
            let calls = made.len();
            let place = format!("seed {seed}, succession {number} ({name}), call {calls}");
            let before = tally.calls();
            let report = report(turns, &made, difference);
            format!("difference at {place}, after {before} compared calls\n{report}")
        })?;
        succession.learn(&call, &answer);
        tally.count(mix, &call, &answer);
    }
    Ok(())
}

/// Both sides, of which the same is asked.
struct Pair {
    ours: Ours,
    plain: Plain,
    /// The library's table before the latest call.
    before: Vec<Row>,
}

impl Pair {
    fn new(turns: Turns) -> Self {
        Pair {
            ours: Ours::new(turns),
            plain: Plain::new(turns),
            before: Vec::new(),
        }
    }

    /// Makes the call on both sides, and answers what came of it or differs.
    fn make(&mut self, call: &Call) -> Result<Answer, String> {
        let plain = caught("plain", || call.make(&mut self.plain))?;
        self.before.clear();
        self.before.extend_from_slice(self.ours.guarded());
        let ours = caught("ours", || call.make(&mut self.ours))?;
        if ours != plain {
            return Err(format!("ours:  {ours:?}\nplain: {plain:?}"));
        }
        self.compare_rows()?;
        if call.is_compared() {
            self.compare_untouched(call, &ours)?;
        }
        Ok(ours)
    }

    fn compare_rows(&self) -> Result<(), String> {
        for place in 0..TABLE_ROWS {
            let (ours, plain) = (self.ours.reading(place), self.plain.reading(place));
            if ours != plain {
                return Err(format!(
                    "row {place}\nours:  {ours:?}\nplain: {plain:?}\nstored by ours: {:?}",
                    self.ours.stored(place)
                ));
            }
        }
        Ok(())
    }

    /// Rows that a call was not given, and all where it is denied, hold the same
    /// numbers as before, whatever is read from them.
    fn compare_untouched(&self, call: &Call, answer: &Answer) -> Result<(), String> {
        let rows = if answer.outcome.is_ok() {
            call.rows()
        } else {
            0
        };
        let brought = Ours::brought(rows);
        let after = self.ours.guarded();
        for place in (0..after.len()).filter(|place| !brought.contains(place)) {
            if self.before[place] != after[place] {
                return Err(format!(
                    "a row was changed that is not to change, {place} counted from 1\n{:?}\n{:?}",
                    self.before[place], after[place]
                ));
            }
        }
        Ok(())
    }
}

/// The place of the first difference and what it is, if there is one.
fn first_difference(turns: Turns, calls: &[Call]) -> Option<(usize, String)> {
    let mut pair = Pair::new(turns);
    calls.iter().enumerate().find_map(|(place, call)| {
        let difference = pair.make(call).err()?;
        Some((place, difference))
    })
}

/// Tells the shortest succession that is found to show a difference.
fn report(turns: Turns, calls: &[Call], difference: String) -> String {
    let shows = |calls: &[Call]| first_difference(turns, calls).is_some();
    let mut calls = shortened(calls, shows);
    let difference = match first_difference(turns, &calls) {
        Some((last, difference)) => {
            calls.truncate(last + 1);
            difference
        }
        None => format!("when all is made again there is no difference; it was\n{difference}"),
    };

    let mut text = format!("succession, with turns {turns:?}:\n");
    let rows = calls.iter().map(Call::rows).max().unwrap_or(0);
    for (place, call) in calls.iter().enumerate() {
        let _ = writeln!(text, "{place}: {}", call_text(call, rows));
    }
    text + &state_before_last(turns, &calls, rows) + &difference
}

/// The state in which both sides still were before the last call.
fn state_before_last(turns: Turns, calls: &[Call], rows: usize) -> String {
    let mut plain = Plain::new(turns);
    for call in &calls[..calls.len().saturating_sub(1)] {
        call.make(&mut plain);
    }
    let gate = plain.gate();
    let mut text = format!(
        "before the last call: clock {}, {} labs, running {:?}\n",
        gate.clock(),
        gate.labs(),
        gate.running()
    );
    for lab in 0..rows {
        let waiting = gate.count_waiting(lab as u64);
        let row: Reading = plain.reading(lab);
        let _ = writeln!(text, "  lab {lab}: {waiting} waiting, {row:?}");
    }
    text + "and then\n"
}

/// Of a table only the rows that are brought to a call.
fn call_text(call: &Call, rows: usize) -> String {
    match call {
        Call::ExchangeTable(table) => {
            let mut text = "the table is now".to_string();
            for row in &table[..rows] {
                let _ = write!(text, "\n     {row:?}");
            }
            text
        }
        _ => format!("{call:?}"),
    }
}
