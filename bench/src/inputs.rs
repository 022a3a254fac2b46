//! Random numbers, rows and tables, lawful and others.

use nehpudra::{LAST_TICK, Row};

use crate::random::Random;
use crate::sides::TABLE_ROWS;

pub const GREATEST_CEILING: u64 = 1_000_000_000;
pub const GREATEST_LENGTH: u64 = 1_000_000;
pub const GREATEST_RATE_SUM: u64 = 900;
pub const MOST_LABS: u64 = 64;

/// The limits of the rules and of 64 bits.
const LIMITS: [u64; 13] = [
    0,
    1,
    16,
    63,
    64,
    GREATEST_RATE_SUM,
    999,
    GREATEST_LENGTH,
    GREATEST_CEILING,
    LAST_TICK,
    i64::MAX as u64,
    1 << 63,
    u64::MAX,
];

/// A number at a limit or right beside it, or of any size.
pub fn hostile(random: &mut Random) -> u64 {
    if random.chance(300) {
        let shift = random.below(64);
        return random.next() >> shift;
    }
    let limit = random.pick(&LIMITS);
    beside(random, limit)
}

/// The number, or one more or less.
fn beside(random: &mut Random, number: u64) -> u64 {
    let change = random.pick(&[0, 1, u64::MAX]);
    number.wrapping_add(change)
}

/// A ceiling, mostly so small that a few runs use it up, and often round.
pub fn ceiling(random: &mut Random) -> u64 {
    let greatest = random.weighted(&[(1, 0), (6, 5_000), (3, 100_000), (1, GREATEST_CEILING)]);
    let any = random.within(greatest / 8, greatest);
    random.pick(&[any, any / 1000 * 1000])
}

/// A threshold up to the ceiling, often round.
pub fn threshold(random: &mut Random, ceiling: u64) -> u64 {
    let any = random.within(0, ceiling);
    random.pick(&[0, any, any, any / 500 * 500, ceiling])
}

/// A rate up to the greatest, often such that levels come to exactly 0, or to
/// exactly the threshold.
fn lawful_rate(random: &mut Random, greatest: u64) -> u64 {
    let any = random.within(1, greatest);
    let round = random.pick(&[100, 200, 250, 300, 500, 600, 750, 800, 900]);
    random.pick(&[any, round.min(greatest)])
}

/// A new row, with a rate up to the greatest.
pub fn lawful_row(random: &mut Random, greatest_rate: u64) -> Row {
    let rate = lawful_rate(random, greatest_rate);
    if random.chance(330) {
        return Row {
            rule: 1,
            rate,
            ..Row::default()
        };
    }
    let ceiling = ceiling(random);
    let threshold = threshold(random, ceiling);
    Row {
        rate,
        ceiling,
        threshold,
        able: u64::from(threshold == 0),
        ..Row::default()
    }
}

/// A row in which anything may be stored, in each field.
pub fn odd_row(random: &mut Random, greatest_rate: u64) -> Row {
    let lawful = lawful_row(random, greatest_rate);
    let mut row = Row {
        rule: random.pick(&[lawful.rule, 0, 1, 2, u64::MAX]),
        able: random.pick(&[0, 1, 7, u64::MAX]),
        ..lawful
    };
    if random.chance(200) {
        row.rate = random.pick(&[0, 1, 999, 1000, u64::MAX]);
    }
    // Both together show that a threshold is cut at the ceiling as it is read.
    let any = (hostile(random), hostile(random));
    match random.below(5) {
        0 => row.ceiling = any.0,
        1 => row.threshold = any.1,
        2 => (row.ceiling, row.threshold) = any,
        _ => {}
    }
    row.level = odd_level(random, row);
    row.left = odd_left(random, row.rate);
    row
}

/// A level near one of those at which a row changes how it is read, or one that
/// a run of a few ticks brings to 0, or any.
fn odd_level(random: &mut Random, row: Row) -> i64 {
    let cost = 1000 - row.rate.clamp(1, 999) as i64;
    let lowest = -cost * LAST_TICK as i64;
    let near = random.weighted(&[
        (4, 0),
        (4, row.threshold as i64),
        (2, row.ceiling as i64),
        (1, lowest),
        (1, i64::MIN),
        (1, i64::MAX),
        (2, -5_000),
    ]);
    match random.below(5) {
        0 => near.wrapping_add(random.within(0, 2) as i64 - 1),
        1 => random.next() as i64 >> random.below(64),
        2 => cost * random.below(10) as i64,
        _ => near.wrapping_add(random.within(0, 4_000) as i64 - 2_000),
    }
}

/// Ticks left of a pause: none, a few, near the most that are read, or any.
fn odd_left(random: &mut Random, rate: u64) -> u64 {
    let rate = rate.clamp(1, 999);
    let most = ((1000 - rate) * LAST_TICK).div_ceil(rate);
    let few = random.within(1, 200);
    let near_most = beside(random, most);
    let any = hostile(random);
    random.weighted(&[(5, 0), (5, few), (1, near_most), (1, any)])
}

/// How a table is filled.
#[derive(Clone, Copy, PartialEq, Eq, Debug)]
pub enum Filling {
    Lawful,
    Odd,
}

/// A table whose first rows can be opened together, mostly.
pub fn table(random: &mut Random, labs: usize, filling: Filling) -> Vec<Row> {
    // One lab may have most of the rates: with small rates alone, levels seldom
    // come to just 0 or just the threshold.
    let most = random.pick(&[0, 0, 200, 500]);
    let share = ((GREATEST_RATE_SUM - most) / labs.max(1) as u64).clamp(1, 999);
    let mut rows: Vec<Row> = (0..TABLE_ROWS)
        .map(|_| match filling {
            Filling::Lawful => lawful_row(random, share),
            Filling::Odd => odd_row(random, share),
        })
        .collect();
    if most > 0 {
        let place = random.below(labs.clamp(1, 3) as u64) as usize;
        rows[place].rate = most;
    }
    if random.chance(150) {
        fill_up_rates(random, &mut rows[..labs]);
    }
    rows
}

/// Raises the first rate so that all come to the greatest sum, or one more.
fn fill_up_rates(random: &mut Random, rows: &mut [Row]) {
    let read = |row: &Row| row.rate.clamp(1, 999);
    let Some((first, others)) = rows.split_first_mut() else {
        return;
    };
    let others: u64 = others.iter().map(read).sum();
    if others < GREATEST_RATE_SUM {
        first.rate = GREATEST_RATE_SUM - others + random.below(2);
    }
}

/// How many labs a gate is opened for: 1 to 64, and often few, or all.
pub fn labs(random: &mut Random) -> usize {
    let any = random.within(1, MOST_LABS);
    let few = random.within(1, 8);
    random.weighted(&[(4, any), (3, few), (2, any.min(few).min(3)), (1, MOST_LABS)]) as usize
}
