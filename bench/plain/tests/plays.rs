//! Plays: the worked plans, what is refused, ticks far apart, and random plans
//! against a play that goes tick by tick.

mod common;

use common::{LAST, Random};
use plain::{Circular, Gate, Plan, QueueOrder, Row, ServerRow, Turn, play, read_plan};

const PLAN: &str = "1\n200 2000 1000\n2\n0 0 3 1000\n0 0 1 1000\n";

fn prints(plan: &str, expected: &str) {
    let printed = play(plan.as_bytes());
    assert_eq!(String::from_utf8(printed).unwrap(), expected);
}

#[test]
fn case_12_the_plan_of_the_rules() {
    prints(&format!("{PLAN}0\n"), "0 1 5 8 8\n0 2 20 21 21\n");
}

#[test]
fn a_withdrawal_at_5_comes_before_the_begin() {
    prints(&format!("{PLAN}1\n5 1\n"), "0 2 5 6 6\n");
}

#[test]
fn a_withdrawal_at_6_is_too_late() {
    prints(
        &format!("{PLAN}1\n6 1\n"),
        "no 7 13\n0 1 5 8 8\n0 2 20 21 21\n",
    );
}

#[test]
fn case_11_as_plans() {
    let plan = "1\n500 3000 3000\n4\n0 0 6 0\n0 0 1 0\n0 0 5 0\n0 0 1 0\n";
    prints(
        &format!("{plan}0\n"),
        "0 1 6 12 12\n0 2 12 13 13\n0 3 20 25 25\n0 4 25 26 26\n",
    );
    // A withdrawal at tick 0 is made before the filings of that tick.
    prints(
        &format!("{plan}1\n0 2\n"),
        "no 9 13\n0 1 6 12 12\n0 2 12 13 13\n0 3 20 25 25\n0 4 25 26 26\n",
    );
    prints(
        &format!("{plan}1\n1 2\n"),
        "0 1 6 12 12\n0 3 12 17 17\n0 4 28 29 29\n",
    );
}

#[test]
fn a_play_may_print_nothing() {
    prints("1\n1 0 0\n0\n0\n", "");
}

#[test]
fn refused_rows_and_openings() {
    prints("2\n1 0 0\n0 1000000001 1\n0\n0\n", "no 3 1\n");
    prints("2\n1000 0 0\n0 0 0\n0\n0\n", "no 2 1\n");
    prints("2\n1 0 0\n1 1000000001 1000000002\n0\n0\n", "no 3 2\n");
    prints("1\n1 5 6\n0\n0\n", "no 2 3\n");
    prints("2\n450 0 0\n451 0 0\n0\n0\n", "no 1 5\n");
    prints("2\n450 0 0\n450 0 0\n0\n0\n", "");
    // A break of the form comes before a refused row.
    prints("1\n0 5 6\n0\n0", "bad 4 1\n");
}

#[test]
fn refused_filings_print_their_lines_in_the_order_of_ticks() {
    let plan = "1\n100 0 0\n5\n9 1 1 9\n9 0 0 9\n8 0 1000001 8\n7 0 1 6\n9 0 1 9\n1\n3 1\n";
    prints(
        plan,
        "no 10 13\nno 7 10\nno 6 9\nno 4 8\nno 5 9\n0 1 9 10 1\n",
    );
}

#[test]
fn the_seventeenth_waiting_ticket_is_refused() {
    let filings = "0 0 1 0\n".repeat(17);
    let plan = format!("1\n100 1000 1000\n17\n{filings}0\n");
    let printed = String::from_utf8(play(plan.as_bytes())).unwrap();
    let lines: Vec<&str> = printed.lines().collect();
    assert_eq!(lines.len(), 17);
    assert_eq!(lines[0], "no 20 11");
    assert_eq!(lines[1], "0 1 10 11 11");
}

#[test]
fn filings_are_numbered_by_tick_and_then_by_the_plan() {
    let plan = "2\n450 0 0\n450 0 0\n4\n20 0 1 20\n10 1 2 10\n20 1 3 20\n10 0 4 10\n0\n";
    // At 10 lab 0 is ahead; lab 1 follows at 14. At 20 it is lab 0's turn.
    prints(plan, "0 2 10 14 4\n1 1 14 16 6\n0 3 20 21 1\n1 4 21 24 4\n");
}

#[test]
fn ticks_far_apart_are_played_at_once() {
    let plan = "1\n500 0 0\n3\n0 0 1000000 0\n1000000000000 0 1 1000000000000\n999999999999 0 1 999999999999\n1\n1000000000000 3\n";
    prints(
        plan,
        "0 1 0 1000000 1000000\n0 2 999999999999 1000000000000 1\nno 8 13\n",
    );
}

#[test]
fn an_import_that_is_to_end_after_the_last_tick_prints_nothing() {
    prints("1\n500 0 0\n1\n999999999999 0 2 1000000000000\n0\n", "");
    prints(
        "1\n500 0 0\n1\n999999999999 0 1 1000000000000\n0\n",
        "0 1 999999999999 1000000000000 1\n",
    );
    // It holds the lock at the last tick, so it cannot be withdrawn then.
    prints(
        "1\n500 0 0\n1\n999999999999 0 2 1000000000000\n1\n1000000000000 1\n",
        "no 6 13\n",
    );
    // One that still waits then prints nothing either.
    prints(
        "1\n1 1000000000 1000000000\n1\n999000000001 0 1 999000000001\n0\n",
        "0 1 999000000001 999000000002 1\n",
    );
    // Ticket 2 would start long after the last tick.
    prints(
        "1\n1 998 998\n2\n999999999998 0 1 999999999998\n999999999998 0 1 999999999998\n0\n",
        "0 1 999999999998 999999999999 1\n",
    );
}

#[test]
fn a_full_plan_with_long_waits_ends_soon() {
    let labs = "1 1000000000 1000000000\n".repeat(64);
    let filings: String = (0..1024)
        .map(|ask| format!("{} {} 1000000 {LAST}\n", LAST / 2048 * ask, ask % 64))
        .collect();
    let plan = format!("64\n{labs}1024\n{filings}0\n");
    let printed = play(plan.as_bytes());
    let lines = printed.iter().filter(|&&byte| byte == b'\n').count();
    assert_eq!(lines, 1024);
}

/// Plays tick by tick up to a tick.
fn slow_play(plan: &Plan, ticks: u64) -> String {
    let mut rows: Vec<Row> = plan
        .labs
        .iter()
        .map(|lab| Row::Server(ServerRow::new(lab.rate, lab.ceiling, lab.threshold).unwrap()))
        .collect();
    let mut gate = Gate::new(Circular::new());
    gate.open(&mut rows, QueueOrder::Arrival).unwrap();
    let mut printed = String::new();
    for tick in 0..ticks {
        if let Some(run) = gate.running()
            && run.began + run.length <= tick
        {
            let end = gate.end(&mut rows, tick).unwrap();
            let (lab, number) = (run.lab, end.number);
            let (start, response) = (tick - end.held, end.response);
            printed += &format!("{lab} {number} {start} {tick} {response}\n");
        }
        for (line, ask) in (plan.first_withdrawal_line()..).zip(&plan.withdrawals) {
            if ask.tick == tick
                && let Err(refusal) = gate.withdraw(&mut rows, tick, ask.number)
            {
                printed += &format!("no {line} {}\n", refusal.number());
            }
        }
        for (line, ask) in (plan.first_filing_line()..).zip(&plan.filings) {
            if ask.tick == tick
                && let Err(refusal) = gate.file(&mut rows, tick, ask.lab, ask.length, ask.due)
            {
                printed += &format!("no {line} {}\n", refusal.number());
            }
        }
        let held = gate.running().is_some();
        let turn = gate.begin(&mut rows, tick);
        assert_eq!(turn.is_err(), held);
        if let Ok(Turn::Wait(until)) = turn {
            assert!(until > tick);
        }
    }
    printed
}

fn random_plan(random: &mut Random) -> String {
    let labs = 1 + random.below(4);
    let mut text = format!("{labs}\n");
    for _ in 0..labs {
        let ceiling = random.below(4000);
        let threshold = random.below(ceiling + 1);
        text += &format!("{} {ceiling} {threshold}\n", 1 + random.below(225));
    }
    let filings = random.below(40);
    text += &format!("{filings}\n");
    for _ in 0..filings {
        let tick = random.below(200);
        let due = (tick + random.below(9)).saturating_sub(1);
        let (lab, length) = (random.below(labs + 1), random.below(9));
        text += &format!("{tick} {lab} {length} {due}\n");
    }
    let withdrawals = random.below(10);
    text += &format!("{withdrawals}\n");
    for _ in 0..withdrawals {
        text += &format!("{} {}\n", random.below(300), random.below(20));
    }
    text
}

#[test]
fn random_plans_print_what_is_printed_tick_by_tick() {
    // With 40 filings of up to 8 ticks, of rates as low as 1, all is over by
    // 40 times the full wait of 8 ticks; most plans are over far sooner, and
    // only these are compared to their ends.
    let mut random = Random::new(2024);
    let mut whole = 0;
    for _ in 0..400 {
        let text = random_plan(&mut random);
        let printed = String::from_utf8(play(text.as_bytes())).unwrap();
        let slow = slow_play(&read_plan(text.as_bytes()).unwrap(), 3000);
        assert!(printed.starts_with(&slow), "{text}\n{printed}\n{slow}");
        whole += u32::from(printed == slow);
    }
    assert!(whole > 100, "only {whole} plans were over");
}

#[test]
fn any_bytes_are_played_without_a_panic() {
    let mut random = Random::new(99);
    for _ in 0..3000 {
        let mut bytes = random_plan(&mut random).into_bytes();
        for _ in 0..random.below(4) {
            let place = random.below(bytes.len() as u64) as usize;
            bytes[place] = random.pick(b"0123456789 \nx\r");
        }
        play(&bytes);
    }
}

/// A plan whose numbers are of any size, most of them unlawful.
#[test]
fn plans_with_odd_numbers_are_played_without_a_panic() {
    let mut random = Random::new(123);
    for _ in 0..2000 {
        let mut text = "2\n400 1000000000 1000000000\n1 1000000000 0\n20\n".to_string();
        for _ in 0..20 {
            let tick = random.odd() % (LAST + 1);
            let due = (random.odd() % (LAST + 1)).max(tick);
            let lab = random.below(3);
            let length = random.odd() % 1_000_001;
            text += &format!("{tick} {lab} {length} {due}\n");
        }
        text += "5\n";
        for _ in 0..5 {
            text += &format!("{} {}\n", random.odd() % (LAST + 1), random.below(20));
        }
        play(text.as_bytes());
    }
}
