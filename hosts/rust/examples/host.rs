//! A host of a page: two labs file imports, each import begins as soon as it
//! can and lasts as declared, and then a small plan is played.

use std::error::Error;

use nehpudra::{Entry, Gate, LAST_TICK, QueueOrder, Row, Turn, Turns, play};

const PLAN: &[u8] = b"1\n200 2000 1000\n2\n0 0 3 1000\n0 0 1 1000\n0\n";

fn main() -> Result<(), Box<dyn Error>> {
    let mut rows = [Row::server(200, 2000, 1000)?, Row::spaced(300)?];
    let mut gate = Gate::new(Turns::Circular)?;
    gate.open(&mut rows, QueueOrder::Arrival)?;

    file(&mut gate, &mut rows, 0, 3);
    file(&mut gate, &mut rows, 0, 1);
    file(&mut gate, &mut rows, 1, 1);
    file(&mut gate, &mut rows, 1, 2);
    file(&mut gate, &mut rows, 2, 1);
    foretell(&mut gate, &rows, 0)?;
    foretell(&mut gate, &rows, 1)?;
    run(&mut gate, &mut rows)?;

    let mut out = [0; 256];
    let bytes = play(PLAN, &mut out)?;
    print!("the plan plays:\n{}", str::from_utf8(&out[..bytes])?);
    Ok(())
}

/// Files an import at tick 0 that is never due.
fn file(gate: &mut Gate, rows: &mut [Row], lab: u64, length: u64) {
    match gate.file(rows, 0, lab, length, LAST_TICK) {
        Ok(number) => println!("0: lab {lab} files {length} ticks: ticket {number}"),
        Err(refusal) => {
            let refusal = refusal.number();
            println!("0: lab {lab} files {length} ticks: refusal {refusal}");
        }
    }
}

fn foretell(gate: &mut Gate, rows: &[Row], lab: u64) -> Result<(), Box<dyn Error>> {
    // No lab has more than 16 tickets waiting.
    let mut list = [Entry::default(); 16];
    let count = gate.outlook(rows, lab, &mut list)?;
    for Entry { number, start, end } in &list[..count] {
        println!("outlook of lab {lab}: ticket {number} from {start} to {end}");
    }
    Ok(())
}

/// Goes from tick to tick until no ticket waits, or the last tick is over.
fn run(gate: &mut Gate, rows: &mut [Row]) -> Result<(), Box<dyn Error>> {
    let mut tick = 0;
    while tick <= LAST_TICK {
        match gate.begin(rows, tick)? {
            Turn::Nothing => {
                println!("{tick}: nothing waits");
                break;
            }
            Turn::Wait(until) => {
                println!("{tick}: wait until {until}");
                tick = until;
            }
            Turn::Began {
                lab,
                number,
                length,
            } => {
                println!("{tick}: lab {lab} begins ticket {number}, of {length} ticks");
                tick += length;
                let ended = gate.end(rows, tick)?;
                let (held, response) = (ended.held, ended.response);
                println!("{tick}: lab {lab} ends, held {held} ticks, response time {response}");
            }
        }
    }
    Ok(())
}
