//! Random plans, and bytes that are nearly plans.

use nehpudra::LAST_TICK;

use crate::inputs::{self, GREATEST_CEILING, GREATEST_LENGTH, GREATEST_RATE_SUM, MOST_LABS};
use crate::random::Random;

const MOST_FILINGS: u64 = 1024;
const MOST_WITHDRAWALS: u64 = 256;
const MOST_BYTES: usize = 65_536;

/// The lists of a plan, with any numbers.
#[derive(Clone, Default)]
pub struct Lists {
    pub labs: Vec<[u64; 3]>,
    pub filings: Vec<[u64; 4]>,
    pub withdrawals: Vec<[u64; 2]>,
}

impl Lists {
    /// The plan in bytes.
    pub fn written(&self) -> Vec<u8> {
        let mut text = String::new();
        write_section(&mut text, &self.labs);
        write_section(&mut text, &self.filings);
        write_section(&mut text, &self.withdrawals);
        text.into_bytes()
    }
}

fn write_section<const FIELDS: usize>(text: &mut String, lines: &[[u64; FIELDS]]) {
    *text += &format!("{}\n", lines.len());
    for line in lines {
        let fields = line.map(|number| number.to_string());
        *text += &fields.join(" ");
        text.push('\n');
    }
}

/// What is played: bytes, and the lists that they are written from, unless they
/// are no plan, or not just that.
pub struct Sample {
    pub kind: &'static str,
    pub lists: Option<Lists>,
    pub bytes: Vec<u8>,
}

/// What a sample is like.
#[derive(Clone, Copy)]
enum Kind {
    Small,
    Middling,
    Full,
    HostileNumbers,
    Refused,
    Damaged,
    AtMostBytes,
    Noise,
}

pub fn sample(random: &mut Random) -> Sample {
    let kind = random.weighted(&[
        (30, Kind::Small),
        (15, Kind::Middling),
        (2, Kind::Full),
        (10, Kind::HostileNumbers),
        (8, Kind::Refused),
        (30, Kind::Damaged),
        (3, Kind::AtMostBytes),
        (4, Kind::Noise),
    ]);
    match kind {
        Kind::Small => whole("small", small(random)),
        Kind::Middling => whole("middling", middling(random)),
        Kind::Full => whole("full", full(random)),
        Kind::HostileNumbers => whole("hostile numbers", hostile_numbers(random)),
        Kind::Refused => whole("refused", refused(random)),
        Kind::Damaged => bytes_only("damaged", damaged(random)),
        Kind::AtMostBytes => bytes_only("at the most bytes", at_most_bytes(random)),
        Kind::Noise => bytes_only("noise", noise(random)),
    }
}

fn whole(kind: &'static str, lists: Lists) -> Sample {
    Sample {
        kind,
        bytes: lists.written(),
        lists: Some(lists),
    }
}

fn bytes_only(kind: &'static str, bytes: Vec<u8>) -> Sample {
    Sample {
        kind,
        bytes,
        lists: None,
    }
}

fn small(random: &mut Random) -> Lists {
    let labs = random.within(1, 4);
    let filings = random.below(20);
    let withdrawals = random.below(6);
    lists(random, labs, filings, withdrawals)
}

fn middling(random: &mut Random) -> Lists {
    let labs = random.within(1, MOST_LABS);
    let filings = random.below(150);
    let withdrawals = random.below(40);
    lists(random, labs, filings, withdrawals)
}

/// Lists that are full, but for one of them at times.
fn full(random: &mut Random) -> Lists {
    let labs = random.pick(&[1, 2, 8, MOST_LABS, MOST_LABS]);
    let any = random.below(MOST_FILINGS);
    let filings = random.pick(&[any, MOST_FILINGS, MOST_FILINGS]);
    let withdrawals = random.pick(&[0, MOST_WITHDRAWALS]);
    lists(random, labs, filings, withdrawals)
}

/// How the ticks of a plan lie.
#[derive(Clone, Copy)]
struct Spread {
    first: u64,
    ticks: u64,
    /// How often, of a thousand, a tick is that of the line before.
    bursts: u64,
}

fn spread(random: &mut Random, lines: u64) -> Spread {
    let far = random.below(LAST_TICK);
    let last_ticks = LAST_TICK - 300;
    Spread {
        first: random.weighted(&[(6, 0), (1, far), (1, last_ticks)]),
        ticks: random.weighted(&[
            (3, 30),
            (4, 1 + lines * 5),
            (4, 1 + lines * 100),
            (1, GREATEST_LENGTH * 10),
            (1, LAST_TICK),
        ]),
        bursts: random.pick(&[0, 300, 900, 1000]),
    }
}

fn lists(random: &mut Random, labs: u64, filings: u64, withdrawals: u64) -> Lists {
    let spread = spread(random, filings);
    let in_order = random.chance(500);
    let length = random.pick(&[5, 20, 300, GREATEST_LENGTH]);
    let mut filing_ticks = ticks(random, spread, filings);
    let withdrawal_ticks = ticks(random, spread, withdrawals);
    if in_order {
        filing_ticks.sort_unstable();
    }
    Lists {
        labs: (0..labs).map(|_| terms(random, labs)).collect(),
        filings: filing_ticks
            .iter()
            .map(|&tick| filing(random, tick, labs, length))
            .collect(),
        withdrawals: withdrawal_ticks
            .iter()
            .map(|&tick| [tick, random.within(0, filings + 1)])
            .collect(),
    }
}

fn ticks(random: &mut Random, spread: Spread, count: u64) -> Vec<u64> {
    let mut ticks: Vec<u64> = Vec::new();
    for _ in 0..count {
        let burst = ticks.last().filter(|_| random.chance(spread.bursts));
        let other = spread.first + random.below(spread.ticks);
        ticks.push(burst.copied().unwrap_or(other).min(LAST_TICK));
    }
    ticks
}

/// Terms of a row such that all of them can be opened together.
fn terms(random: &mut Random, labs: u64) -> [u64; 3] {
    let rate = random.within(1, (GREATEST_RATE_SUM / labs).min(999));
    let ceiling = inputs::ceiling(random);
    [rate, ceiling, inputs::threshold(random, ceiling)]
}

/// A filing that is granted, mostly.
fn filing(random: &mut Random, tick: u64, labs: u64, length: u64) -> [u64; 4] {
    let mut filing = [
        tick,
        random.below(labs),
        random.within(1, length),
        (tick + random.below(1000)).min(LAST_TICK),
    ];
    if random.chance(60) {
        let (field, number) = random.pick(&[
            (1, labs),
            (1, 63),
            (2, 0),
            (2, GREATEST_LENGTH + 1),
            (3, tick.saturating_sub(1)),
            (3, LAST_TICK),
        ]);
        filing[field] = number;
    }
    filing
}

/// A plan in which some numbers are hostile; one above the last tick breaks it.
fn hostile_numbers(random: &mut Random) -> Lists {
    let mut lists = small(random);
    for _ in 0..random.within(1, 4) {
        let any = inputs::hostile(random);
        let number = if random.chance(900) {
            any.min(LAST_TICK)
        } else {
            any
        };
        match random.below(8) {
            0 => *field(random, &mut lists.labs) = number,
            1..=5 => *field(random, &mut lists.filings) = number,
            _ => *field(random, &mut lists.withdrawals) = number,
        }
    }
    lists
}

/// A field of some line; without lines there is one to be had all the same.
fn field<'a, const FIELDS: usize>(
    random: &mut Random,
    lines: &'a mut Vec<[u64; FIELDS]>,
) -> &'a mut u64 {
    if lines.is_empty() {
        lines.push([0; FIELDS]);
    }
    let line = random.below(lines.len() as u64) as usize;
    let field = random.below(FIELDS as u64) as usize;
    &mut lines[line][field]
}

/// A plan of which a row is refused, or the opening.
fn refused(random: &mut Random) -> Lists {
    let labs = random.within(1, MOST_LABS);
    let mut lists = lists(random, labs, 5, 2);
    let place = random.below(labs) as usize;
    let [rate, ceiling, threshold] = &mut lists.labs[place];
    match random.below(4) {
        0 => *rate = random.pick(&[0, 1000, LAST_TICK]),
        1 => *ceiling = random.pick(&[GREATEST_CEILING + 1, LAST_TICK]),
        2 => *threshold = random.pick(&[*ceiling + 1, LAST_TICK]),
        _ => *rate = 999,
    }
    lists
}

/// A plan with a few changes, each to some bytes, or to some line.
fn damaged(random: &mut Random) -> Vec<u8> {
    // In a plan of a few lines each place that can break is hit more often.
    let lists = if random.chance(600) {
        lists(random, 1, 1, 1)
    } else {
        small(random)
    };
    let mut bytes = lists.written();
    for _ in 0..random.pick(&[1, 1, 1, 2, 5]) {
        damage(random, &mut bytes);
    }
    bytes
}

/// Bytes that are put in, or in the place of others.
const PIECES: [&[u8]; 16] = [
    b" ", b"\n", b"\r", b"\r\n", b"-", b"+", b"0", b"1", b"9", b"00", b"\t", b".", b"x", b"\0",
    b"\xff", b" 5",
];

/// What is put in the place of a field: numbers that no plan holds, or only at a
/// limit, and some with a field behind them.
const FIELD_TEXTS: [&str; 10] = [
    "1000000000000",
    "1000000000001",
    "9999999999999",
    "18446744073709551616",
    "340282366920938463463374607431768211456",
    "00",
    "65",
    "65 1",
    "1025",
    "1025 1",
];

fn damage(random: &mut Random, bytes: &mut Vec<u8>) {
    let place = random.below(bytes.len() as u64 + 1) as usize;
    let next = (place + 1).min(bytes.len());
    let piece = random.pick(&PIECES);
    let line = line_at(bytes, place);
    match random.below(13) {
        0 => drop(bytes.splice(place..next, piece.iter().copied())),
        1 => drop(bytes.splice(place..place, piece.iter().copied())),
        2 => drop(bytes.drain(place..next)),
        3 => bytes.truncate(place),
        4 => bytes.extend_from_within(place..next),
        5 => bytes.extend_from_within(line),
        6 => drop(bytes.drain(line)),
        7 => drop(bytes.splice(line.start..line.start, piece.iter().copied())),
        8 => {
            let end = line.end.saturating_sub(1).max(line.start);
            drop(bytes.splice(end..end, piece.iter().copied()));
        }
        9 => drop(bytes.pop()),
        10 => {
            let start = field_at(bytes, place).start;
            drop(bytes.splice(start..start, piece.iter().copied()));
        }
        _ => {
            let text = random.pick(&FIELD_TEXTS);
            let field = field_at(bytes, place);
            drop(bytes.splice(field, text.bytes()));
        }
    }
}

/// The line around a place, with its line feed.
fn line_at(bytes: &[u8], place: usize) -> std::ops::Range<usize> {
    let is_feed = |byte: &u8| *byte == b'\n';
    let start = bytes[..place].iter().rposition(is_feed);
    let end = bytes[place..].iter().position(is_feed);
    start.map_or(0, |feed| feed + 1)..end.map_or(bytes.len(), |feed| place + feed + 1)
}

/// The digits around a place.
fn field_at(bytes: &[u8], place: usize) -> std::ops::Range<usize> {
    let is_other = |byte: &u8| !byte.is_ascii_digit();
    let start = bytes[..place].iter().rposition(is_other);
    let end = bytes[place..].iter().position(is_other);
    start.map_or(0, |other| other + 1)..end.map_or(bytes.len(), |other| place + other)
}

/// Bytes near the most that a plan may have, a plan or not.
fn at_most_bytes(random: &mut Random) -> Vec<u8> {
    let length = random.pick(&[MOST_BYTES, MOST_BYTES + 1, MOST_BYTES + 500]);
    if random.chance(300) {
        return vec![random.pick(b"1 \n"); length];
    }
    let mut lists = longest();
    let mut excess = lists.written().len() - length;
    let mut place = 0;
    while excess > 0 {
        excess -= shorten(random, &mut lists.filings[place], excess);
        place += 1;
    }
    lists.written()
}

/// A plan that can be opened and has more bytes than it may. Almost only the
/// last tick has so many digits.
fn longest() -> Lists {
    let terms = [14, GREATEST_CEILING, GREATEST_CEILING / 2];
    Lists {
        labs: vec![terms; MOST_LABS as usize],
        filings: vec![[LAST_TICK; 4]; MOST_FILINGS as usize],
        withdrawals: vec![[LAST_TICK; 2]; MOST_WITHDRAWALS as usize],
    }
}

/// Makes a filing one that is granted, or a little shorter, and answers how many
/// bytes fewer it has.
fn shorten(random: &mut Random, filing: &mut [u64; 4], excess: usize) -> usize {
    const LAWFUL: usize = 1 + 11 + 6;
    if excess >= LAWFUL {
        let tick = random.within(LAST_TICK / 10, LAST_TICK - 1);
        *filing = [tick, random.within(10, 63), GREATEST_LENGTH, LAST_TICK];
        return LAWFUL;
    }
    let digits = excess.min(12);
    filing[3] /= 10_u64.pow(digits as u32);
    digits
}

/// Bytes of which a plan could be made, in no order.
fn noise(random: &mut Random) -> Vec<u8> {
    let length = random.below(60);
    let mut bytes: Vec<u8> = (0..length)
        .map(|_| random.pick(b"0112345 \n\n\r-x"))
        .collect();
    if random.chance(500) {
        bytes.splice(0..0, *b"1\n");
    }
    bytes
}
