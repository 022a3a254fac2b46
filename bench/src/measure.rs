//! Measures both sides in one run, in turns.
//!
//! Most calls change the state that they are measured in. So a batch is made on
//! several gates, each of which was put in the same state before: what the last
//! batch did is undone by calls that are not timed, and the rows are put back as
//! they were. The clock of the machine is read before and after a batch, and
//! what the reading takes, found with batches of nothing, is taken off. Every
//! call but open comes one tick after the one before, so that rows rest, as they
//! do at a host.
//!
//! What is undone has just touched what the next call touches, and all of it for
//! all gates is small beside a second-level cache. So the figures are those of
//! gates that are in use, and not of gates that were long left alone.
//!
//! The library is called through its C interface by the safe crate, as a host
//! calls it, and the plain implementation is compiled into this program and may
//! be inlined, as in a host that is written with it.

use std::hint::black_box;
use std::time::{Duration, Instant};

use nehpudra::Turns;

use crate::beds::{Bed, Timed};
use crate::plans::Lists;
use crate::random::Random;
use crate::sides::{Ours, Plain, Side};

/// How many gates a batch is made on.
const GATES: usize = 16;

/// A figure is the median of so many batches, as far as there is time.
const MOST_BATCHES: usize = 4_001;
const LEAST_BATCHES: usize = 101;
const TIME: Duration = Duration::from_millis(400);

const LABS: [usize; 3] = [1, 8, 64];
const WAITING: [u64; 3] = [0, 8, 16];
const FILINGS: [u64; 3] = [16, 128, 1024];

/// What the cells of the table mean.
const MEANING: &str = "\
Rows are server rows and spaced rows by turns, and queues go by the shortest
import. `waiting` is how many tickets each lab has waiting before the call.

- open: the tickets that wait are forgotten.
- file: of any lab; with 16 waiting it is denied (11).
- withdraw: of any waiting ticket; with none waiting it is denied (13).
- begin: all rows are able, so an import starts; with none waiting the answer is
  nothing.
- begin, wait: no row is able.
- end: of a run of one tick; the tickets wait besides the one that runs.
- outlook: of any lab; as many entries are listed as tickets wait.
- play: of a plan with 8 labs and so many filings, reading and printing included.
";

pub fn measure() {
    let cores = std::thread::available_parallelism().map_or(0, |cores| cores.get());
    println!("{}, {cores} cores\n\n{MEANING}", processor());
    let clock = clock_cost();
    println!("Reading the clock takes {clock:.0} ns for a batch of {GATES} calls.\n");
    println!("| call | labs | waiting | ours ns | plain ns | ratio |");
    println!("|---|---|---|---|---|---|");
    for timed in Timed::ALL {
        for (labs, waiting) in cells(timed) {
            let [ours, plain] = measure_calls(timed, labs, waiting, clock);
            let name = timed.name();
            print_line(&format!("{name} | {labs} | {waiting}"), ours, plain);
        }
    }
    for filings in FILINGS {
        let [ours, plain] = measure_play(filings, clock);
        print_line(&format!("play, {filings} filings | 8 | "), ours, plain);
    }
}

fn cells(timed: Timed) -> impl Iterator<Item = (usize, u64)> {
    // With no ticket waiting no begin answers wait.
    let first = usize::from(timed == Timed::BeginWaits);
    LABS.into_iter()
        .flat_map(move |labs| WAITING[first..].iter().map(move |&waiting| (labs, waiting)))
}

fn print_line(cell: &str, ours: f64, plain: f64) {
    let ratio = ours / plain;
    println!("| {cell} | {ours:.1} | {plain:.1} | {ratio:.2} |");
}

/// The name of the processor, as the machine tells it.
fn processor() -> String {
    let told = std::fs::read_to_string("/proc/cpuinfo").unwrap_or_default();
    let name = told
        .lines()
        .find_map(|line| line.strip_prefix("model name"))
        .map(|name| name.trim_start_matches([' ', '\t', ':']).to_string());
    name.unwrap_or("a processor that is not named".to_string())
}

/// What a batch of nothing takes.
fn clock_cost() -> f64 {
    let batches = (0..10_001).map(|_| {
        let start = Instant::now();
        black_box(());
        nanoseconds(start)
    });
    median(batches.collect())
}

fn nanoseconds(start: Instant) -> f64 {
    start.elapsed().as_nanos() as f64
}

fn median(mut batches: Vec<f64>) -> f64 {
    batches.sort_unstable_by(f64::total_cmp);
    batches[batches.len() / 2]
}

/// Nanoseconds of a call, of ours and of plain.
fn measure_calls(timed: Timed, labs: usize, waiting: u64, clock: f64) -> [f64; 2] {
    let mut ours: Vec<Bed<Ours>> = beds(timed, labs, waiting);
    let mut plain: Vec<Bed<Plain>> = beds(timed, labs, waiting);
    let batches = in_turns(
        || time_calls(timed, &mut ours),
        || time_calls(timed, &mut plain),
    );
    for (ours, plain) in ours.iter().zip(&plain) {
        assert_eq!(ours.answer(), plain.answer(), "both sides answer alike");
    }
    batches.map(|batches| (median(batches) - clock).max(0.0) / GATES as f64)
}

fn beds<S: Side>(timed: Timed, labs: usize, waiting: u64) -> Vec<Bed<S>> {
    let random = |number| Random::new(labs as u64, number);
    (0..GATES as u64)
        .map(|number| Bed::new(random(number), timed, labs, waiting))
        .collect()
}

/// Times a batch of each side in turns.
fn in_turns(mut ours: impl FnMut() -> f64, mut plain: impl FnMut() -> f64) -> [Vec<f64>; 2] {
    let mut batches = [Vec::new(), Vec::new()];
    let start = Instant::now();
    while batches[0].len() < LEAST_BATCHES
        || (batches[0].len() < MOST_BATCHES && start.elapsed() < TIME)
    {
        batches[0].push(ours());
        batches[1].push(plain());
    }
    batches
}

/// Puts all gates in the state that is wanted, and then times a call of each.
fn time_calls<S: Side>(timed: Timed, beds: &mut [Bed<S>]) -> f64 {
    for bed in beds.iter_mut() {
        bed.prepare(timed);
    }
    let start = Instant::now();
    for bed in beds.iter_mut() {
        black_box(bed).call(black_box(timed));
    }
    nanoseconds(start)
}

/// Nanoseconds of a play, of ours and of plain.
fn measure_play(filings: u64, clock: f64) -> [f64; 2] {
    let plan = plan(filings);
    let printed = plain::play(&plan);
    let mut out = vec![0; printed.len()];
    let time_ours = || {
        let start = Instant::now();
        let played = nehpudra::play(black_box(&plan), black_box(&mut out));
        let time = nanoseconds(start);
        assert_eq!(played, Ok(printed.len()), "both sides print alike");
        time
    };
    let time_plain = || {
        let start = Instant::now();
        black_box(plain::play(black_box(&plan)));
        nanoseconds(start)
    };
    let batches = in_turns(time_ours, time_plain);
    batches.map(|batches| median(batches) - clock)
}

/// A plan whose imports take a third of the time that the rates give.
fn plan(filings: u64) -> Vec<u8> {
    const LABS: u64 = 8;
    let mut random = Random::new(filings, 0);
    let filings = (0..filings).map(|place| {
        let tick = place * 10 + random.below(10);
        let length = random.within(1, 5);
        [tick, random.below(LABS), length, nehpudra::LAST_TICK]
    });
    let lists = Lists {
        filings: filings.collect(),
        labs: vec![[100, 10_000, 1_000]; LABS as usize],
        withdrawals: Vec::new(),
    };
    lists.written()
}

/// The turn rule of all gates that are measured.
pub const TURNS: Turns = Turns::Circular;
