//! Counts of what came, so that a comparison of nothing does not pass for one.

use nehpudra::{Refusal, Turn};

use crate::calls::{Answer, Call, Granted};
use crate::successions::{MIXES, Mix};

/// What can come of calls, as far as it is counted.
const KINDS: [&str; 9] = [
    "row made",
    "open",
    "file",
    "withdraw",
    "begin: began",
    "begin: wait",
    "begin: nothing",
    "end",
    "outlook",
];

/// A denied begin is counted with those that could have started an import.
const BEGAN: usize = 4;

/// Of a mix, what share of its calls each kind has at least, of a thousand.
const GOOD_SHARE: u64 = 1;

#[derive(Clone, Copy, Default)]
struct Count {
    granted: u64,
    denied: u64,
}

/// Counts of compared calls.
#[derive(Default)]
pub struct Tally {
    counts: [[Count; KINDS.len()]; MIXES.len()],
    refusals: [u64; Refusal::ALL.len()],
}

impl Tally {
    pub fn count(&mut self, mix: usize, call: &Call, answer: &Answer) {
        let Some(kind) = kind(call, answer) else {
            return;
        };
        let count = &mut self.counts[mix][kind];
        match answer.outcome {
            Ok(_) => count.granted += 1,
            Err(number) => {
                count.denied += 1;
                self.refusals[number as usize - 1] += 1;
            }
        }
    }

    pub fn calls(&self) -> u64 {
        (0..MIXES.len()).map(|mix| self.calls_of(mix)).sum()
    }

    fn calls_of(&self, mix: usize) -> u64 {
        let counts = self.counts[mix].iter();
        counts.map(|count| count.granted + count.denied).sum()
    }

    pub fn print(&self) {
        println!("Calls of each mix, granted / denied:\n");
        let names: Vec<&str> = MIXES.iter().map(|mix| mix.name).collect();
        println!("| call | {} |", names.join(" | "));
        println!("|---|{}", "---|".repeat(MIXES.len()));
        for (kind, name) in KINDS.iter().enumerate() {
            let cells: Vec<String> = (0..MIXES.len()).map(|mix| self.cell(mix, kind)).collect();
            println!("| {name} | {} |", cells.join(" | "));
        }
        println!("\nRefusals that came:\n");
        for (refusal, times) in Refusal::ALL.iter().zip(self.refusals) {
            println!("- {refusal}: {}", times_told(*refusal, times));
        }
    }

    fn cell(&self, mix: usize, kind: usize) -> String {
        let Count { granted, denied } = self.counts[mix][kind];
        format!("{granted} / {denied}")
    }

    /// What should have come and did not, or too seldom.
    pub fn missing(&self) -> Vec<String> {
        let refusals = Refusal::ALL
            .iter()
            .zip(self.refusals)
            .filter(|&(&refusal, times)| can_come(refusal) && times == 0)
            .map(|(refusal, _)| format!("{refusal} never came"));
        let kinds = MIXES
            .iter()
            .enumerate()
            .flat_map(|(mix, Mix { name, .. })| {
                let least = self.calls_of(mix) * GOOD_SHARE / 1000;
                let counts = KINDS.iter().zip(self.counts[mix]);
                counts
                    .filter(move |(_, count)| count.granted <= least)
                    .map(move |(kind, count)| {
                        format!("`{kind}` was granted {} times in mix {name}", count.granted)
                    })
            });
        refusals.chain(kinds).collect()
    }
}

fn kind(call: &Call, answer: &Answer) -> Option<usize> {
    Some(match call {
        Call::New(_) | Call::ExchangeTable(_) | Call::ExchangeRow { .. } => return None,
        Call::ServerRow { .. } | Call::SpacedRow { .. } => 0,
        Call::Open { .. } => 1,
        Call::File { .. } => 2,
        Call::Withdraw { .. } => 3,
        Call::Begin { .. } => match answer.outcome {
            Ok(Granted::Turn(Turn::Wait(_))) => BEGAN + 1,
            Ok(Granted::Turn(Turn::Nothing)) => BEGAN + 2,
            _ => BEGAN,
        },
        Call::End { .. } => 7,
        Call::Outlook { .. } => 8,
    })
}

/// No run lasts until all tickets are given.
fn can_come(refusal: Refusal) -> bool {
    refusal != Refusal::TicketsExhausted
}

fn times_told(refusal: Refusal, times: u64) -> String {
    if can_come(refusal) {
        format!("{times}")
    } else {
        format!("{times}; it cannot come here, since it takes 1,000,000,000,000 tickets")
    }
}
