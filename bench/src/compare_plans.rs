//! Plays the same plans on both sides and compares the bytes.

use std::collections::BTreeMap;
use std::fmt::Write;

use nehpudra::PlayError;

use crate::caught::caught;
use crate::plans::{Lists, Sample, sample};
use crate::random::Random;
use crate::shorten::shortened;

/// The bytes that stand before and after the room that a play is given.
const GUARDS: usize = 16;

/// What a play can begin a line with, but for an end, and all of these should
/// come.
const PRINTED: [&str; 12] = [
    "an end",
    "no, refusal 1",
    "no, refusal 2",
    "no, refusal 3",
    "no, refusal 5",
    "no, refusal 8",
    "no, refusal 9",
    "no, refusal 10",
    "no, refusal 11",
    "no, refusal 13",
    "bad",
    "big",
];

/// Compares so many plans, and prints counts; or tells a difference.
pub fn compare(plans: u64, seed: u64) -> Result<(), String> {
    let mut tally = Tally::default();
    for number in 0..plans {
        // Another sequence than that of any succession of calls.
        let mut random = Random::new(!seed, number);
        let sample = sample(&mut random);
        let printed = play_both(&sample.bytes, number).map_err(|difference| {
            let place = format!("seed {seed}, plan {number} ({})", sample.kind);
            format!(
                "difference at {place}\n{}",
                report(&sample, number, difference)
            )
        })?;
        tally.count(sample.kind, &printed);
    }
    println!("Compared {plans} plans of seed {seed}: no difference.\n");
    tally.print();
    match tally.missing() {
        missing if missing.is_empty() => Ok(()),
        missing => Err(missing.join("\n")),
    }
}

/// Counts of compared plans.
#[derive(Default)]
struct Tally {
    kinds: BTreeMap<&'static str, u64>,
    lines: BTreeMap<String, u64>,
}

impl Tally {
    fn count(&mut self, kind: &'static str, printed: &[u8]) {
        *self.kinds.entry(kind).or_default() += 1;
        for line in String::from_utf8_lossy(printed).lines() {
            let fields: Vec<&str> = line.split(' ').collect();
            let name = match fields[..] {
                ["no", _, refusal] => format!("no, refusal {refusal}"),
                [word @ ("bad" | "big"), ..] => word.to_string(),
                _ => "an end".to_string(),
            };
            *self.lines.entry(name).or_default() += 1;
        }
    }

    fn print(&self) {
        println!("Plans of each kind:\n");
        for (kind, times) in &self.kinds {
            println!("- {kind}: {times}");
        }
        println!("\nLines that were printed:\n");
        for name in PRINTED {
            println!("- {name}: {}", self.lines.get(name).unwrap_or(&0));
        }
        println!();
    }

    fn missing(&self) -> Vec<String> {
        PRINTED
            .iter()
            .filter(|name| !self.lines.contains_key(**name))
            .map(|name| format!("no plan printed `{name}`"))
            .collect()
    }
}

/// Plays on our side with room that is enough, and with room that is not, and
/// answers what is printed.
fn play_both(plan: &[u8], number: u64) -> Result<Vec<u8>, String> {
    let expected = caught("plain", || plain::play(plan))?;
    let more = [0, 1, 100, 70_000][number as usize % 4];
    play_ours(plan, &expected, expected.len() + more)?;
    if let Some(too_few) = expected.len().checked_sub(1) {
        let fewer = [too_few, 0, too_few / 2][number as usize % 3];
        play_ours(plan, &expected, fewer)?;
        play_ours(plan, &expected, too_few)?;
    }
    Ok(expected)
}

/// Plays with so much room, and tells what is not as expected.
fn play_ours(plan: &[u8], expected: &[u8], room: usize) -> Result<(), String> {
    // Bytes that no play prints, so that every byte that is written shows.
    let before = vec![0xa5; room + 2 * GUARDS];
    let mut out = before.clone();
    let head = &mut out[GUARDS..GUARDS + room];
    let played = caught("ours", || nehpudra::play(plan, head))?;
    let mut wanted = before;
    let wanted_answer = if expected.len() <= room {
        wanted[GUARDS..GUARDS + expected.len()].copy_from_slice(expected);
        Ok(expected.len())
    } else {
        let needed = expected.len();
        Err(PlayError::TooShort { needed })
    };
    if played != wanted_answer {
        let start = printed(&out, &wanted);
        return Err(format!(
            "room {room}\nours:  {played:?}\nplain: {wanted_answer:?}\n{start}"
        ));
    }
    if out != wanted {
        return Err(format!("room {room}\n{}", printed(&out, &wanted)));
    }
    Ok(())
}

/// The lines of both around the first byte that differs.
fn printed(ours: &[u8], plain: &[u8]) -> String {
    let differs = ours.iter().zip(plain).position(|(a, b)| a != b);
    let Some(place) = differs else {
        return String::new();
    };
    let start = place.saturating_sub(80).max(GUARDS.min(place));
    let mut text = format!(
        "byte {} of what is written, from 0; from {} on:\n",
        place as i64 - GUARDS as i64,
        start as i64 - GUARDS as i64
    );
    for (name, bytes) in [("ours", ours), ("plain", plain)] {
        let end = bytes.len().min(place + 80);
        let _ = writeln!(text, "{name}: {}", bytes[start..end].escape_ascii());
    }
    text
}

/// Tells the shortest plan that is found to show a difference.
fn report(sample: &Sample, number: u64, difference: String) -> String {
    let differs = |bytes: &[u8]| play_both(bytes, number).is_err();
    let short = match &sample.lists {
        Some(lists) => shortened_lists(lists, &differs).written(),
        None => shortened(&sample.bytes, differs),
    };
    let difference = play_both(&short, number).err().unwrap_or_else(|| {
        format!("when it is played again there is no difference; it was\n{difference}")
    });
    let lines: Vec<String> = short
        .split_inclusive(|&byte| byte == b'\n')
        .map(|line| format!("  {}\n", line.escape_ascii()))
        .collect();
    format!("plan:\n{}{difference}", lines.concat())
}

/// Leaves out withdrawals, filings and the last labs.
fn shortened_lists(lists: &Lists, differs: &impl Fn(&[u8]) -> bool) -> Lists {
    let mut short = lists.clone();
    let whole = short.clone();
    short.withdrawals = shortened(&whole.withdrawals, |withdrawals| {
        let withdrawals = withdrawals.to_vec();
        let fewer = Lists {
            withdrawals,
            ..whole.clone()
        };
        differs(&fewer.written())
    });
    let whole = short.clone();
    short.filings = shortened(&whole.filings, |filings| {
        let filings = filings.to_vec();
        let fewer = Lists {
            filings,
            ..whole.clone()
        };
        differs(&fewer.written())
    });
    while short.labs.len() > 1 {
        let mut fewer = short.clone();
        fewer.labs.pop();
        if !differs(&fewer.written()) {
            break;
        }
        short = fewer;
    }
    short
}
