//! The gate: the worked cases, each refusal and the order of the checks.

mod common;

use common::{LAST, case_row};
use plain::{
    Circular, Ended, Entry, Gate, LongestUnserved, QueueOrder, Refusal, Row, ServerRow, SpacedRow,
    Turn,
};

type CaseGate = Gate<Circular>;

fn opened(rows: &mut [Row]) -> CaseGate {
    let mut gate = Gate::new(Circular::new());
    gate.open(rows, QueueOrder::Arrival).unwrap();
    gate
}

/// The gate of cases 1 to 6, with tickets 1 and 2 filed at tick 0.
fn case_gate() -> (CaseGate, [Row; 1]) {
    let mut rows = [case_row()];
    let mut gate = opened(&mut rows);
    assert_eq!(gate.file(&mut rows, 0, 0, 3, 1000), Ok(1));
    assert_eq!(gate.file(&mut rows, 0, 0, 1, 1000), Ok(2));
    (gate, rows)
}

fn began(number: u64, length: u64) -> Result<Turn, Refusal> {
    Ok(Turn::Began {
        lab: 0,
        number,
        length,
    })
}

fn ended(number: u64, held: u64, response: u64) -> Result<Ended, Refusal> {
    Ok(Ended {
        number,
        held,
        response,
    })
}

#[test]
fn cases_1_to_3() {
    let (mut gate, mut rows) = case_gate();
    assert_eq!(gate.begin(&mut rows, 0), Ok(Turn::Wait(5)));
    assert_eq!(gate.begin(&mut rows, 5), began(1, 3));
    assert_eq!(rows[0].level(), 1000);
    assert_eq!(gate.end(&mut rows, 8), ended(1, 3, 8));
    assert_eq!((rows[0].level(), rows[0].able()), (-1400, false));
    assert_eq!(gate.begin(&mut rows, 8), Ok(Turn::Wait(20)));
    assert_eq!(gate.begin(&mut rows, 20), began(2, 1));
    assert_eq!(gate.end(&mut rows, 21), ended(2, 1, 21));
    assert_eq!((rows[0].level(), rows[0].able()), (200, true));
    assert_eq!(gate.begin(&mut rows, 21), Ok(Turn::Nothing));
}

#[test]
fn case_5_begun_at_8_and_ended_at_10() {
    let (mut gate, mut rows) = case_gate();
    assert_eq!(gate.begin(&mut rows, 8), began(1, 3));
    assert_eq!(rows[0].level(), 1600);
    assert_eq!(gate.end(&mut rows, 10), ended(1, 2, 10));
    assert_eq!((rows[0].level(), rows[0].able()), (0, true));
}

#[test]
fn case_6_begun_at_7_and_ended_at_9() {
    let (mut gate, mut rows) = case_gate();
    assert_eq!(gate.begin(&mut rows, 7), began(1, 3));
    assert_eq!(rows[0].level(), 1400);
    assert_eq!(gate.end(&mut rows, 9), ended(1, 2, 9));
    assert_eq!((rows[0].level(), rows[0].wake()), (-200, 6));
    assert_eq!(gate.begin(&mut rows, 9), Ok(Turn::Wait(15)));
}

#[test]
fn case_7_waits_for_a_quotient_rounded_up() {
    let mut rows = [Row::Server(ServerRow::new(300, 2000, 1000).unwrap())];
    let mut gate = opened(&mut rows);
    gate.file(&mut rows, 0, 0, 1, LAST).unwrap();
    assert_eq!(rows[0].wake(), 4);
    assert_eq!(gate.begin(&mut rows, 3), Ok(Turn::Wait(4)));
    assert_eq!(rows[0].level(), 900);
    assert_eq!(gate.begin(&mut rows, 4), began(1, 1));
    assert_eq!(rows[0].level(), 1200);
}

#[test]
fn case_8_spaced_imports_start_at_0_and_4() {
    let mut rows = [Row::Spaced(SpacedRow::new(300).unwrap())];
    let mut gate = opened(&mut rows);
    gate.file(&mut rows, 0, 0, 1, LAST).unwrap();
    gate.file(&mut rows, 0, 0, 1, LAST).unwrap();
    let mut list = [Entry::default(); 2];
    assert_eq!(gate.outlook(&rows, 0, &mut list), Ok(2));
    assert_eq!((list[0].start, list[1].start), (0, 4));
    assert_eq!(gate.begin(&mut rows, 0), began(1, 1));
    assert_eq!(gate.end(&mut rows, 1), ended(1, 1, 1));
    assert_eq!(rows[0].level(), -900);
    assert_eq!(gate.begin(&mut rows, 1), Ok(Turn::Wait(4)));
    assert_eq!(gate.begin(&mut rows, 4), began(2, 1));
}

fn spaced_rows(rates: &[u64]) -> Vec<Row> {
    rates
        .iter()
        .map(|&rate| Row::Spaced(SpacedRow::new(rate).unwrap()))
        .collect()
}

#[test]
fn case_10_the_sum_of_rates() {
    let mut gate = Gate::new(Circular::new());
    let mut rows = spaced_rows(&[450, 450]);
    assert_eq!(gate.open(&mut rows, QueueOrder::Arrival), Ok(()));
    let mut rows = spaced_rows(&[450, 451]);
    assert_eq!(
        gate.open(&mut rows, QueueOrder::Arrival),
        Err(Refusal::RateSumTooLarge)
    );
}

fn case_11_gate() -> (CaseGate, [Row; 1]) {
    let mut rows = [Row::Server(ServerRow::new(500, 3000, 3000).unwrap())];
    let mut gate = opened(&mut rows);
    for length in [6, 1, 5, 1] {
        gate.file(&mut rows, 0, 0, length, LAST).unwrap();
    }
    (gate, rows)
}

/// Number, start and end of the imports of lab 0, each as soon as it can.
fn run_all(gate: &mut CaseGate, rows: &mut [Row]) -> Vec<(u64, u64, u64)> {
    let mut runs = Vec::new();
    let mut tick = gate.clock();
    loop {
        match gate.begin(rows, tick).unwrap() {
            Turn::Began { number, length, .. } => {
                runs.push((number, tick, tick + length));
                tick += length;
                gate.end(rows, tick).unwrap();
            }
            Turn::Wait(until) => tick = until,
            Turn::Nothing => return runs,
        }
    }
}

fn outlook(gate: &CaseGate, rows: &[Row]) -> Vec<(u64, u64, u64)> {
    let mut list = [Entry::default(); 16];
    let count = gate.outlook(rows, 0, &mut list).unwrap();
    list[..count as usize]
        .iter()
        .map(|entry| (entry.number, entry.start, entry.end))
        .collect()
}

#[test]
fn case_11_outlook_and_runs() {
    let (mut gate, mut rows) = case_11_gate();
    let expected = [(1, 6, 12), (2, 12, 13), (3, 20, 25), (4, 25, 26)];
    assert_eq!(outlook(&gate, &rows), expected);
    assert_eq!(run_all(&mut gate, &mut rows), expected);
}

#[test]
fn case_11_without_ticket_2() {
    let (mut gate, mut rows) = case_11_gate();
    assert_eq!(gate.withdraw(&mut rows, 0, 2), Ok(0));
    let expected = [(1, 6, 12), (3, 12, 17), (4, 28, 29)];
    assert_eq!(outlook(&gate, &rows), expected);
    assert_eq!(run_all(&mut gate, &mut rows), expected);
}

#[test]
fn case_13_outlooks_at_0_5_and_7() {
    let (mut gate, mut rows) = case_gate();
    assert_eq!(outlook(&gate, &rows), [(1, 5, 8), (2, 20, 21)]);

    // A ticket that comes and goes moves the clock and nothing else.
    gate.file(&mut rows, 5, 0, 1, LAST).unwrap();
    gate.withdraw(&mut rows, 5, 3).unwrap();
    assert_eq!(gate.clock(), 5);
    assert_eq!(outlook(&gate, &rows), [(1, 5, 8), (2, 20, 21)]);

    gate.file(&mut rows, 7, 0, 1, LAST).unwrap();
    gate.withdraw(&mut rows, 7, 4).unwrap();
    assert_eq!(outlook(&gate, &rows), [(1, 7, 10), (2, 20, 21)]);
}

#[test]
fn case_14_lock_time_and_free_ticks() {
    let (mut gate, mut rows) = case_gate();
    let runs = run_all(&mut gate, &mut rows);
    let held: u64 = runs.iter().map(|(_, start, end)| end - start).sum();
    assert_eq!(held, 4);
    assert_eq!(200 * 16 + 2000 + 800 * 3, 7600);
    assert!(1000 * held <= 7600);
    assert_eq!(800 * 16 - 2000 - 800 * 3, 8400);
    assert!(1000 * (16 - held) >= 8400);
}

fn case_17_gate(order: QueueOrder) -> (CaseGate, [Row; 1]) {
    let mut rows = [case_row()];
    let mut gate = Gate::new(Circular::new());
    gate.open(&mut rows, order).unwrap();
    for (length, due) in [(5, 90), (3, 40), (5, 40), (1, 90), (3, 40), (2, 7)] {
        gate.file(&mut rows, 0, 0, length, due).unwrap();
    }
    (gate, rows)
}

fn numbers(gate: &CaseGate, rows: &[Row]) -> Vec<u64> {
    outlook(gate, rows).iter().map(|entry| entry.0).collect()
}

#[test]
fn case_17_queue_orders() {
    let (gate, rows) = case_17_gate(QueueOrder::Arrival);
    assert_eq!(numbers(&gate, &rows), [1, 2, 3, 4, 5, 6]);
    let (gate, rows) = case_17_gate(QueueOrder::Due);
    assert_eq!(numbers(&gate, &rows), [6, 2, 3, 5, 1, 4]);
    let (mut gate, mut rows) = case_17_gate(QueueOrder::Short);
    assert_eq!(numbers(&gate, &rows), [4, 6, 2, 5, 1, 3]);
    assert_eq!(gate.withdraw(&mut rows, 0, 5), Ok(0));
    assert_eq!(numbers(&gate, &rows), [4, 6, 2, 1, 3]);
    let began: Vec<u64> = run_all(&mut gate, &mut rows)
        .iter()
        .map(|run| run.0)
        .collect();
    assert_eq!(began, [4, 6, 2, 1, 3]);
}

#[test]
fn no_due_date_comes_last() {
    let mut rows = [case_row()];
    let mut gate = Gate::new(Circular::new());
    gate.open(&mut rows, QueueOrder::Due).unwrap();
    for due in [LAST, LAST - 1, LAST] {
        gate.file(&mut rows, 0, 0, 1, due).unwrap();
    }
    assert_eq!(numbers(&gate, &rows), [2, 1, 3]);
}

#[test]
fn a_new_gate_has_the_empty_table() {
    let mut gate = Gate::new(LongestUnserved::new());
    assert_eq!((gate.clock(), gate.labs(), gate.running()), (0, 0, None));
    assert_eq!(gate.count_waiting(0), 0);
    let none: &mut [Row] = &mut [];
    assert_eq!(gate.file(none, 0, 0, 1, 1), Err(Refusal::NoSuchLab));
    assert_eq!(gate.withdraw(none, 0, 1), Err(Refusal::NoSuchTicket));
    assert_eq!(gate.end(none, 0), Err(Refusal::LockFree));
    assert_eq!(gate.outlook(none, 0, &mut []), Err(Refusal::NoSuchLab));
    assert_eq!(gate.begin(none, LAST + 1), Err(Refusal::TickOutOfRange));
    assert_eq!(gate.begin(none, 7), Ok(Turn::Nothing));
    assert_eq!(gate.clock(), 7);
    assert_eq!(gate.begin(none, 6), Err(Refusal::TickOutOfRange));
    let mut one = [case_row()];
    assert_eq!(gate.begin(&mut one, 7), Err(Refusal::TableMismatch));
}

/// Checks that a call is denied and changes neither gate nor rows.
fn denied<A: std::fmt::Debug + PartialEq>(
    gate: &CaseGate,
    rows: &[Row],
    refusal: Refusal,
    call: impl FnOnce(&mut CaseGate, &mut [Row]) -> Result<A, Refusal>,
) {
    let mut same_gate = gate.clone();
    let mut same_rows = rows.to_vec();
    assert_eq!(call(&mut same_gate, &mut same_rows), Err(refusal));
    assert_eq!(same_gate, *gate);
    assert_eq!(same_rows, rows);
}

#[test]
fn open_checks_the_count_of_labs_and_then_the_rates() {
    let (gate, rows) = case_gate();
    let tables = [
        (vec![], Refusal::LabCountOutOfRange),
        (vec![rows[0]; 65], Refusal::LabCountOutOfRange),
        (vec![rows[0]; 1000], Refusal::LabCountOutOfRange),
        (vec![rows[0]; 5], Refusal::RateSumTooLarge),
        (vec![rows[0]; 64], Refusal::RateSumTooLarge),
        (spaced_rows(&[901]), Refusal::RateSumTooLarge),
    ];
    for (table, refusal) in tables {
        denied(&gate, &table, refusal, |gate, table| {
            gate.open(table, QueueOrder::Due)
        });
    }
    let mut gate = gate;
    let mut table = vec![Row::Spaced(SpacedRow::new(14).unwrap()); 64];
    assert_eq!(gate.open(&mut table, QueueOrder::Due), Ok(()));
    assert_eq!(gate.labs(), 64);
    assert_eq!(gate.count_waiting(0), 0);
}

#[test]
fn rates_of_a_table_are_added_up_as_they_are_read() {
    let odd = |rate| Row::Spaced(SpacedRow { rate, left: 9 });
    let mut gate = Gate::new(Circular::new());
    let mut rows = [odd(0), odd(899)];
    assert_eq!(gate.open(&mut rows, QueueOrder::Arrival), Ok(()));
    assert_eq!(
        rows,
        [Row::Spaced(SpacedRow { rate: 0, left: 0 }), {
            let mut row = odd(899);
            row.restart();
            row
        }]
    );
    let mut rows = [odd(0), odd(900)];
    assert_eq!(
        gate.open(&mut rows, QueueOrder::Arrival),
        Err(Refusal::RateSumTooLarge)
    );
    let mut rows = [odd(u64::MAX), odd(u64::MAX)];
    assert_eq!(
        gate.open(&mut rows, QueueOrder::Arrival),
        Err(Refusal::RateSumTooLarge)
    );
}

#[test]
fn an_opening_forgets_the_running_import_and_keeps_the_turns() {
    let mut rows = spaced_rows(&[100, 100, 100]);
    let mut gate = opened(&mut rows);
    for lab in 0..3 {
        gate.file(&mut rows, 9, lab, 5, LAST).unwrap();
    }
    gate.begin(&mut rows, 9).unwrap();
    assert_eq!(gate.running().unwrap().lab, 0);
    gate.open(&mut rows, QueueOrder::Arrival).unwrap();
    assert_eq!((gate.clock(), gate.running()), (0, None));
    assert_eq!(gate.end(&mut rows, 0), Err(Refusal::LockFree));
    assert!(rows.iter().all(Row::able));
    assert!((0..3).all(|lab| gate.count_waiting(lab) == 0));
    for lab in 0..3 {
        assert_eq!(gate.file(&mut rows, 0, lab, 5, LAST), Ok(lab + 1));
    }
    let turn = gate.begin(&mut rows, 0);
    assert!(matches!(turn, Ok(Turn::Began { lab: 1, .. })));
}

#[test]
fn file_checks_in_order() {
    let (mut gate, mut rows) = case_gate();
    for _ in 0..14 {
        gate.file(&mut rows, 3, 0, 1, LAST).unwrap();
    }
    assert_eq!(gate.count_waiting(0), 16);
    let file = |tick, lab, length, due| {
        move |gate: &mut CaseGate, rows: &mut [Row]| gate.file(rows, tick, lab, length, due)
    };
    let two = [rows[0]; 2];
    let max = u64::MAX;
    denied(
        &gate,
        &two,
        Refusal::TableMismatch,
        file(max, max, max, max),
    );
    denied(&gate, &[], Refusal::TableMismatch, file(3, 0, 1, 3));
    denied(&gate, &rows, Refusal::TickOutOfRange, file(2, max, 0, 0));
    denied(
        &gate,
        &rows,
        Refusal::TickOutOfRange,
        file(LAST + 1, 1, 0, 0),
    );
    denied(&gate, &rows, Refusal::TickOutOfRange, file(max, 0, 1, max));
    denied(&gate, &rows, Refusal::NoSuchLab, file(4, 1, 0, 0));
    denied(&gate, &rows, Refusal::NoSuchLab, file(4, max, max, max));
    denied(&gate, &rows, Refusal::LengthOutOfRange, file(4, 0, 0, 3));
    denied(
        &gate,
        &rows,
        Refusal::LengthOutOfRange,
        file(4, 0, 1_000_001, 3),
    );
    denied(
        &gate,
        &rows,
        Refusal::LengthOutOfRange,
        file(4, 0, max, max),
    );
    denied(&gate, &rows, Refusal::DueOutOfRange, file(4, 0, 1, 3));
    denied(
        &gate,
        &rows,
        Refusal::DueOutOfRange,
        file(4, 0, 1_000_000, LAST + 1),
    );
    denied(&gate, &rows, Refusal::DueOutOfRange, file(4, 0, 1, max));
    denied(&gate, &rows, Refusal::QueueFull, file(4, 0, 1, 4));
    denied(&gate, &rows, Refusal::QueueFull, file(LAST, 0, 1, LAST));
}

#[test]
fn withdraw_checks_in_order() {
    let (mut gate, mut rows) = case_gate();
    gate.begin(&mut rows, 6).unwrap();
    let withdraw = |tick, number| {
        move |gate: &mut CaseGate, rows: &mut [Row]| gate.withdraw(rows, tick, number)
    };
    let two = [rows[0]; 2];
    denied(&gate, &two, Refusal::TableMismatch, withdraw(0, 0));
    denied(&gate, &rows, Refusal::TickOutOfRange, withdraw(5, 0));
    denied(&gate, &rows, Refusal::TickOutOfRange, withdraw(LAST + 1, 2));
    denied(&gate, &rows, Refusal::TickOutOfRange, withdraw(u64::MAX, 2));
    for number in [0, 1, 3, u64::MAX] {
        denied(&gate, &rows, Refusal::NoSuchTicket, withdraw(9, number));
    }
    assert_eq!(gate.withdraw(&mut rows, 9, 2), Ok(0));
    denied(&gate, &rows, Refusal::NoSuchTicket, withdraw(9, 2));
}

#[test]
fn begin_and_end_check_in_order() {
    let (gate, rows) = case_gate();
    let begin = |tick| move |gate: &mut CaseGate, rows: &mut [Row]| gate.begin(rows, tick);
    let end = |tick| move |gate: &mut CaseGate, rows: &mut [Row]| gate.end(rows, tick);
    let two = [rows[0]; 2];
    denied(&gate, &two, Refusal::TableMismatch, end(u64::MAX));
    denied(&gate, &rows, Refusal::TickOutOfRange, end(u64::MAX));
    denied(&gate, &rows, Refusal::LockFree, end(0));
    denied(&gate, &rows, Refusal::TickOutOfRange, begin(LAST + 1));

    let (mut gate, mut rows) = (gate, rows);
    gate.begin(&mut rows, 6).unwrap();
    denied(&gate, &two, Refusal::TableMismatch, begin(0));
    denied(&gate, &rows, Refusal::TickOutOfRange, begin(5));
    denied(&gate, &rows, Refusal::TickOutOfRange, begin(u64::MAX));
    denied(&gate, &rows, Refusal::LockHeld, begin(6));
    denied(&gate, &rows, Refusal::LockHeld, begin(LAST));
    denied(&gate, &two, Refusal::TableMismatch, end(5));
    denied(&gate, &rows, Refusal::TickOutOfRange, end(5));
    assert_eq!(gate.end(&mut rows, LAST), ended(1, LAST - 6, LAST));
    assert_eq!(rows[0].level(), 1200 - 800 * (LAST as i64 - 6));
    assert_eq!(
        gate.begin(&mut rows, LAST),
        Ok(Turn::Wait(LAST + rows[0].wake()))
    );
}

#[test]
fn outlook_checks_in_order_and_leaves_the_list() {
    let (mut gate, mut rows) = case_gate();
    let mark = Entry {
        number: 7,
        start: 8,
        end: 9,
    };
    let check = |gate: &CaseGate, rows: &[Row], lab, places, refusal| {
        let mut list = vec![mark; places];
        assert_eq!(gate.outlook(rows, lab, &mut list), Err(refusal));
        assert_eq!(list, vec![mark; places]);
    };
    let two = [rows[0]; 2];
    check(&gate, &rows, 0, 0, Refusal::ListTooShort);
    check(&gate, &rows, 0, 1, Refusal::ListTooShort);
    check(&gate, &rows, 1, 1, Refusal::NoSuchLab);
    check(&gate, &rows, u64::MAX, 1, Refusal::NoSuchLab);
    check(&gate, &two, u64::MAX, 1, Refusal::TableMismatch);

    let mut list = [mark; 4];
    assert_eq!(gate.outlook(&rows, 0, &mut list), Ok(2));
    assert_eq!(list[2..], [mark; 2]);

    gate.begin(&mut rows, 5).unwrap();
    check(&gate, &rows, 0, 0, Refusal::LockHeld);
    check(&gate, &rows, 1, 0, Refusal::NoSuchLab);
    check(&gate, &two, 1, 0, Refusal::TableMismatch);
    gate.end(&mut rows, 5).unwrap();
    gate.withdraw(&mut rows, 5, 2).unwrap();
    assert_eq!(gate.outlook(&rows, 0, &mut []), Ok(0));
}

#[test]
fn an_outlook_goes_past_the_last_tick() {
    let mut rows = [Row::Server(
        ServerRow::new(1, 1_000_000_000, 1_000_000_000).unwrap(),
    )];
    let mut gate = opened(&mut rows);
    for _ in 0..16 {
        gate.file(&mut rows, LAST, 0, 1_000_000, LAST).unwrap();
    }
    rows[0] = Row::Server(ServerRow {
        rate: 0,
        ceiling: u64::MAX,
        threshold: u64::MAX,
        level: i64::MIN,
        able: true,
    });
    let wake = 999 * LAST + 1_000_000_000;
    let mut list = [Entry::default(); 16];
    assert_eq!(gate.outlook(&rows, 0, &mut list), Ok(16));
    assert_eq!(list[0].start, LAST + wake);
    assert_eq!(list[0].end, LAST + wake + 1_000_000);
    // From a full level each run takes 999,000,000 off, down to 1,000,000.
    assert_eq!(list[1].start, list[0].end);
    // The second leaves −998,000,000, and the row waits for all of it.
    assert_eq!(list[2].start, list[1].end + 1_998_000_000);
    assert_eq!(gate.begin(&mut rows, LAST), Ok(Turn::Wait(LAST + wake)));
}

#[test]
fn the_row_that_holds_the_lock_does_not_rest() {
    let mut rows = spaced_rows(&[100, 100]);
    let mut gate = opened(&mut rows);
    gate.file(&mut rows, 0, 0, 10, LAST).unwrap();
    gate.begin(&mut rows, 0).unwrap();
    // The host brings rows that both have ticks left.
    let left = |left| Row::Spaced(SpacedRow { rate: 100, left });
    let mut other = [left(50), left(50)];
    gate.file(&mut other, 7, 1, 1, LAST).unwrap();
    assert_eq!(other, [left(50), left(43)]);
    // The row of the lab answers no to ended and stays as it is.
    assert_eq!(gate.end(&mut other, 10), ended(1, 10, 10));
    assert_eq!(other, [left(50), left(40)]);
    assert_eq!(gate.begin(&mut other, 10), Ok(Turn::Wait(50)));
}

#[test]
fn wait_tells_the_smallest_wake_among_labs_with_tickets() {
    let left = |left| Row::Spaced(SpacedRow { rate: 100, left });
    let mut rows = spaced_rows(&[100, 100, 100]);
    let mut gate = opened(&mut rows);
    gate.file(&mut rows, 4, 1, 1, LAST).unwrap();
    gate.file(&mut rows, 4, 2, 1, LAST).unwrap();
    let mut rows = [left(3), left(30), left(20)];
    assert_eq!(gate.begin(&mut rows, 5), Ok(Turn::Wait(5 + 19)));
    // A row that is able without a ticket does not stand.
    let mut rows = [left(0), left(30), left(20)];
    assert_eq!(gate.begin(&mut rows, 5), Ok(Turn::Wait(5 + 20)));
}

#[test]
fn turns_go_round_among_labs_that_stand() {
    let mut rows = spaced_rows(&[10, 10, 10]);
    let mut gate = opened(&mut rows);
    for lab in [2, 1, 0, 2] {
        gate.file(&mut rows, 0, lab, 1, LAST).unwrap();
    }
    let mut order = Vec::new();
    for tick in 0..3 {
        let turn = gate.begin(&mut rows, tick).unwrap();
        if let Turn::Began { lab, number, .. } = turn {
            order.push((lab, number));
        }
        gate.end(&mut rows, tick + 1).unwrap();
    }
    assert_eq!(order, [(0, 3), (1, 2), (2, 1)]);
}

#[test]
fn a_run_may_hold_0_ticks() {
    let (mut gate, mut rows) = case_gate();
    gate.begin(&mut rows, 5).unwrap();
    assert_eq!(gate.end(&mut rows, 5), ended(1, 0, 5));
    assert_eq!((rows[0].level(), rows[0].able()), (1000, true));
    assert_eq!(gate.begin(&mut rows, 5), began(2, 1));
}

#[test]
fn questions_about_the_gate() {
    let (mut gate, mut rows) = case_gate();
    assert_eq!((gate.labs(), gate.clock()), (1, 0));
    assert_eq!(gate.count_waiting(0), 2);
    for lab in [1, 63, 64, u64::MAX] {
        assert_eq!(gate.count_waiting(lab), 0);
    }
    gate.begin(&mut rows, 6).unwrap();
    let running = gate.running().unwrap();
    assert_eq!((running.lab, running.number), (0, 1));
    assert_eq!((running.length, running.filed, running.began), (3, 0, 6));
    assert_eq!((gate.clock(), gate.count_waiting(0)), (6, 1));
}
