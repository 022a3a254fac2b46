//! Holds the proved library to a plain implementation of the same rules, and
//! measures both.

mod beds;
mod calls;
mod caught;
mod compare_calls;
mod compare_plans;
mod inputs;
mod measure;
mod plans;
mod random;
mod shorten;
mod sides;
mod successions;
mod tallies;

use std::process::ExitCode;

const USAGE: &str = "usage: bench [compare [--calls N] [--plans N] [--seed S] | measure]

Without arguments it compares with the full counts, and then measures.";

/// How much is compared.
struct Counts {
    calls: u64,
    plans: u64,
    seed: u64,
}

const FULL: Counts = Counts {
    calls: 1_000_000,
    plans: 20_000,
    seed: 1,
};

fn main() -> ExitCode {
    let words: Vec<String> = std::env::args().skip(1).collect();
    let words: Vec<&str> = words.iter().map(String::as_str).collect();
    let done = match words[..] {
        [] => compare(&FULL).map(|()| measure::measure()),
        ["measure"] => {
            measure::measure();
            Ok(())
        }
        ["compare", ref options @ ..] => match counts(options) {
            Some(counts) => compare(&counts),
            None => return usage(),
        },
        _ => return usage(),
    };
    match done {
        Ok(()) => ExitCode::SUCCESS,
        Err(difference) => {
            println!("{difference}");
            ExitCode::FAILURE
        }
    }
}

fn usage() -> ExitCode {
    eprintln!("{USAGE}");
    ExitCode::from(2)
}

/// The counts that the options say; none where they are not understood.
fn counts(options: &[&str]) -> Option<Counts> {
    let mut counts = FULL;
    for option in options.chunks(2) {
        let [name, number] = option else {
            return None;
        };
        let number = number.parse().ok()?;
        match *name {
            "--calls" => counts.calls = number,
            "--plans" => counts.plans = number,
            "--seed" => counts.seed = number,
            _ => return None,
        }
    }
    Some(counts)
}

fn compare(counts: &Counts) -> Result<(), String> {
    caught::keep_quiet();
    if counts.calls > 0 {
        compare_calls::compare(counts.calls, counts.seed)?;
    }
    if counts.plans > 0 {
        compare_plans::compare(counts.plans, counts.seed)?;
    }
    Ok(())
}
