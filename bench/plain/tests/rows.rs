//! Rows: the worked figures, the refusals, and what holds of any stored
//! numbers.

mod common;

use common::{LAST, Random};
use plain::{Refusal, Row, ServerRow, SpacedRow};

fn server() -> ServerRow {
    ServerRow::new(200, 2000, 1000).unwrap()
}

#[test]
fn making_a_server_row_checks_rate_then_ceiling_then_threshold() {
    let make = |rate, ceiling, threshold| ServerRow::new(rate, ceiling, threshold).unwrap_err();
    assert_eq!(make(0, 1_000_000_001, u64::MAX), Refusal::RateOutOfRange);
    assert_eq!(make(1000, 0, 0), Refusal::RateOutOfRange);
    assert_eq!(make(u64::MAX, u64::MAX, u64::MAX), Refusal::RateOutOfRange);
    assert_eq!(make(1, 1_000_000_001, u64::MAX), Refusal::CeilingOutOfRange);
    assert_eq!(make(999, 5, 6), Refusal::ThresholdAboveCeiling);
    assert!(ServerRow::new(999, 1_000_000_000, 1_000_000_000).is_ok());
    assert!(ServerRow::new(1, 0, 0).is_ok());
}

#[test]
fn making_a_spaced_row_checks_the_rate() {
    for rate in [0, 1000, u64::MAX] {
        assert_eq!(SpacedRow::new(rate), Err(Refusal::RateOutOfRange));
    }
    assert_eq!(SpacedRow::new(1), Ok(SpacedRow { rate: 1, left: 0 }));
    assert_eq!(SpacedRow::new(999).unwrap().left, 0);
}

#[test]
fn a_new_row_is_as_after_a_restart() {
    let row = server();
    assert_eq!((row.level(), row.able(), row.wake()), (0, false, 5));
    let row = ServerRow::new(200, 2000, 0).unwrap();
    assert_eq!((row.level(), row.able(), row.wake()), (0, true, 0));
}

#[test]
fn cases_1_to_3_on_the_row() {
    let mut row = server();
    assert!(row.rest(5));
    assert_eq!((row.level(), row.able()), (1000, true));
    assert!(row.ended(3));
    assert_eq!((row.level(), row.able(), row.wake()), (-1400, false, 12));
    assert!(row.rest(12));
    assert_eq!((row.level(), row.able()), (1000, true));
    assert!(row.ended(1));
    assert_eq!((row.level(), row.able(), row.wake()), (200, true, 0));
}

#[test]
fn case_4_a_run_from_level_0_takes_the_full_wait() {
    let mut row = ServerRow {
        able: true,
        ..server()
    };
    assert!(row.able());
    assert!(row.ended(3));
    assert_eq!((row.level(), row.wake()), (-2400, 17));
}

#[test]
fn cases_5_and_6_on_the_row() {
    let mut row = server();
    row.rest(8);
    assert_eq!(row.level(), 1600);
    row.ended(2);
    assert_eq!((row.level(), row.able()), (0, true));

    let mut row = server();
    row.rest(7);
    assert_eq!(row.level(), 1400);
    row.ended(2);
    assert_eq!((row.level(), row.able(), row.wake()), (-200, false, 6));
}

#[test]
fn case_7_the_level_reached_stays_above_the_threshold() {
    let mut row = ServerRow::new(300, 2000, 1000).unwrap();
    assert_eq!(row.wake(), 4);
    row.rest(3);
    assert_eq!((row.level(), row.able()), (900, false));
    row.rest(1);
    assert_eq!((row.level(), row.able()), (1200, true));
}

#[test]
fn case_8_the_pause_of_a_spaced_row() {
    let mut row = SpacedRow::new(300).unwrap();
    assert!(row.ended(1));
    assert_eq!((row.left, row.wake(), row.level()), (3, 3, -900));
    assert!(!row.able());
    assert!(!row.ended(1));
    assert!(row.rest(2));
    assert_eq!(row.wake(), 1);
    assert!(row.rest(2));
    assert_eq!((row.wake(), row.able()), (0, true));
    assert!(row.ended(0));
    assert!(row.able());
}

#[test]
fn the_pause_is_the_shortest_with_which_the_rate_is_kept() {
    for rate in [1, 2, 300, 333, 500, 998, 999] {
        for run in [0, 1, 2, 3, 7, 1000, 1_000_000, LAST] {
            let mut row = SpacedRow::new(rate).unwrap();
            assert!(row.ended(run));
            let enough = |pause: u64| 1000 * run <= rate * (run + pause);
            assert!(enough(row.left));
            assert!(row.left == 0 || !enough(row.left - 1));
        }
    }
}

#[test]
fn rest_is_cut_at_the_ceiling() {
    let mut row = server();
    row.rest(LAST);
    assert_eq!(row.level(), 2000);
    row.rest(LAST);
    assert_eq!(row.level(), 2000);
}

#[test]
fn an_able_row_stays_able_below_the_threshold() {
    let mut row = ServerRow {
        level: 200,
        able: true,
        ..server()
    };
    row.rest(1);
    assert_eq!((row.level(), row.able()), (400, true));
}

#[test]
fn a_mark_without_a_level_does_not_come_back() {
    // The mark says able, but the level is negative: the row is not able, and
    // becomes able at the threshold only.
    let mut row = ServerRow {
        level: -100,
        able: true,
        ..server()
    };
    assert!(!row.able());
    assert_eq!(row.wake(), 6);
    row.rest(1);
    assert_eq!((row.level(), row.able(), row.wake()), (100, false, 5));
    row.rest(5);
    assert_eq!((row.level(), row.able()), (1100, true));
}

#[test]
fn a_level_at_the_threshold_is_able_without_the_mark() {
    let mut row = ServerRow {
        level: 1000,
        able: false,
        ..server()
    };
    assert!(row.able());
    assert!(row.ended(1));
    assert_eq!((row.level(), row.able()), (200, true));
}

#[test]
fn stored_numbers_out_of_range_are_read_as_the_nearest() {
    let row = ServerRow {
        rate: u64::MAX,
        ceiling: u64::MAX,
        threshold: u64::MAX,
        level: i64::MAX,
        able: false,
    };
    assert_eq!(row.rate(), 999);
    assert_eq!(row.ceiling(), 1_000_000_000);
    assert_eq!(row.threshold(), 1_000_000_000);
    assert_eq!(row.level(), 1_000_000_000);
    assert!(row.able());

    let row = ServerRow {
        rate: 0,
        ceiling: 5,
        threshold: 9,
        level: i64::MIN,
        able: true,
    };
    assert_eq!(row.rate(), 1);
    assert_eq!(row.threshold(), 5);
    assert_eq!(row.level(), -999 * LAST as i64);
    assert!(!row.able());
    assert_eq!(row.wake(), 999 * LAST + 5);

    let row = SpacedRow {
        rate: 0,
        left: u64::MAX,
    };
    assert_eq!(row.wake(), 999 * LAST);
    assert_eq!(row.level(), -999 * LAST as i64);
    let row = SpacedRow {
        rate: u64::MAX,
        left: u64::MAX,
    };
    assert_eq!(row.rate(), 999);
    assert_eq!(row.wake(), LAST.div_ceil(999));
    assert_eq!((row.ceiling(), row.threshold()), (0, 0));
}

#[test]
fn counts_above_the_last_tick_are_answered_no() {
    for row in [
        Row::Server(ServerRow::new(200, 2000, 0).unwrap()),
        Row::Spaced(SpacedRow::new(200).unwrap()),
    ] {
        for count in [LAST + 1, i64::MAX as u64, u64::MAX] {
            let mut same = row;
            assert!(!same.rest(count));
            assert!(!same.ended(count));
            assert_eq!(same, row);
        }
        let mut row = row;
        assert!(row.rest(LAST));
        assert!(row.ended(LAST));
        assert!(!row.able());
    }
}

#[test]
fn a_mixed_row_stays_of_its_kind() {
    let mut random = Random::new(3);
    for _ in 0..2000 {
        let mut row = random.odd_row();
        let was_server = matches!(row, Row::Server(_));
        row.rest(random.odd());
        row.ended(random.odd());
        row.restart();
        assert_eq!(matches!(row, Row::Server(_)), was_server);
    }
}

/// The rest after which a lab can count on its row again.
fn full_wait(row: &Row, run: u64) -> u64 {
    (row.threshold() + (1000 - row.rate()) * run).div_ceil(row.rate())
}

/// What a row answers.
fn answers(row: &Row) -> (u64, u64, u64, i64, u64, bool) {
    (
        row.rate(),
        row.ceiling(),
        row.threshold(),
        row.level(),
        row.wake(),
        row.able(),
    )
}

fn terms(row: &Row) -> (u64, u64, u64) {
    (row.rate(), row.ceiling(), row.threshold())
}

fn check_state(row: &Row) {
    assert!((1..=999).contains(&row.rate()));
    assert!(row.ceiling() <= 1_000_000_000);
    assert!(row.threshold() <= row.ceiling());
    assert!(row.level() <= row.ceiling() as i64);
    assert!(!row.able() || row.level() >= 0);
    assert_eq!(row.wake() == 0, row.able());
    assert!(row.wake() <= full_wait(row, LAST));
}

fn check_rest(row: &Row, ticks: u64) {
    let mut rested = *row;
    assert_eq!(rested.rest(ticks), ticks <= LAST);
    if ticks > LAST {
        assert_eq!(rested, *row);
        return;
    }
    check_state(&rested);
    assert_eq!(terms(&rested), terms(row));
    let gain = i128::from(rested.level()) - i128::from(row.level());
    assert!(gain <= i128::from(row.rate()) * i128::from(ticks));
    assert_eq!(rested.wake(), row.wake().saturating_sub(ticks));
}

fn check_ended(row: &Row, ticks: u64) {
    let mut ended = *row;
    let granted = row.able() && ticks <= LAST;
    assert_eq!(ended.ended(ticks), granted);
    if !granted {
        assert_eq!(ended, *row);
        return;
    }
    check_state(&ended);
    assert_eq!(terms(&ended), terms(row));
    let loss = i128::from(row.level()) - i128::from(ended.level());
    assert!(loss >= i128::from(1000 - row.rate()) * i128::from(ticks));
    assert!(ended.wake() <= full_wait(row, ticks));
}

fn check_restart(row: &Row) {
    let mut restarted = *row;
    restarted.restart();
    check_state(&restarted);
    assert_eq!(terms(&restarted), terms(row));
    assert!(restarted.wake() <= full_wait(row, 0));
}

fn check_rest_rest(row: &Row, d: u64, e: u64) {
    if d <= LAST && e <= LAST && d + e <= LAST {
        let mut twice = *row;
        twice.rest(d);
        twice.rest(e);
        let mut once = *row;
        once.rest(d + e);
        assert_eq!(answers(&twice), answers(&once));
    }
}

#[test]
fn the_sentences_hold_of_any_stored_numbers() {
    let mut random = Random::new(0x5eed);
    for _ in 0..100_000 {
        let row = random.odd_row();
        let (d, e) = (random.odd(), random.odd());
        check_state(&row);
        check_rest(&row, d);
        check_ended(&row, d);
        check_restart(&row);
        check_rest_rest(&row, d, e);
        check_rest_rest(&row, row.wake().min(LAST), e.min(10));
    }
}

#[test]
fn what_a_row_is_read_as_fixes_all_that_follows() {
    // A row with odd numbers answers as the one that holds what it is read as.
    let mut random = Random::new(77);
    for _ in 0..100_000 {
        let mut odd = Row::Server(random.odd_server());
        let mut lawful = Row::Server(ServerRow {
            rate: odd.rate(),
            ceiling: odd.ceiling(),
            threshold: odd.threshold(),
            level: odd.level(),
            able: odd.able(),
        });
        for _ in 0..4 {
            assert_eq!(answers(&odd), answers(&lawful));
            let ticks = random.odd();
            match random.below(5) {
                0 => assert_eq!(odd.ended(ticks), lawful.ended(ticks)),
                1 => {
                    odd.restart();
                    lawful.restart();
                }
                _ => assert_eq!(odd.rest(ticks), lawful.rest(ticks)),
            }
        }
        assert_eq!(answers(&odd), answers(&lawful));
    }
}
