//! Reading plans: each break of the form, where it is, and the limits.

use plain::{Fault, Filing, Plan, Terms, Withdrawal, play, read_plan};

const PLAN: &str = "1\n200 2000 1000\n2\n0 0 3 1000\n0 0 1 1000\n0\n";

fn broken(bytes: &[u8], line: u64, field: u64) {
    assert_eq!(read_plan(bytes), Err(Fault::Break { line, field }));
    let printed = format!("bad {line} {field}\n");
    assert_eq!(play(bytes), printed.as_bytes());
}

/// The plan with one line changed.
fn with_line(line: usize, text: &str) -> Vec<u8> {
    let mut lines: Vec<&str> = PLAN.lines().collect();
    lines[line - 1] = text;
    (lines.join("\n") + "\n").into_bytes()
}

/// The first lines of the plan and then a text.
fn cut(lines: usize, text: &str) -> Vec<u8> {
    let kept = PLAN.split_inclusive('\n').take(lines);
    kept.chain([text]).collect::<String>().into_bytes()
}

#[test]
fn the_plan_is_read() {
    let filing = |length| Filing {
        tick: 0,
        lab: 0,
        length,
        due: 1000,
    };
    let plan = Plan {
        labs: vec![Terms {
            rate: 200,
            ceiling: 2000,
            threshold: 1000,
        }],
        filings: vec![filing(3), filing(1)],
        withdrawals: vec![],
    };
    assert_eq!(read_plan(PLAN.as_bytes()), Ok(plan.clone()));
    assert_eq!(plan.first_lab_line(), 2);
    assert_eq!(plan.first_filing_line(), 4);
    assert_eq!(plan.first_withdrawal_line(), 7);

    let bytes = PLAN.replace("1000\n0\n", "1000\n1\n6 1\n");
    let withdrawals = vec![Withdrawal { tick: 6, number: 1 }];
    let with_withdrawal = Plan {
        withdrawals,
        ..plan
    };
    assert_eq!(read_plan(bytes.as_bytes()), Ok(with_withdrawal));
}

#[test]
fn a_byte_that_is_no_digit() {
    broken(&with_line(2, "200 2k 1000"), 2, 2);
    broken(&with_line(2, "200 +2000 1000"), 2, 2);
    broken(&with_line(2, "200 -0 1000"), 2, 2);
    broken(&with_line(2, "200 2000 1000\r"), 2, 3);
    broken(&with_line(2, "200\t2000 1000"), 2, 1);
    broken(&with_line(6, "0\r"), 6, 1);
    broken(&with_line(3, "\u{665}"), 3, 1);
    broken(b"\xff\xfe", 1, 1);
    broken(b"\0", 1, 1);
}

#[test]
fn a_field_with_nothing_in_it() {
    broken(&with_line(2, "200  2000 1000"), 2, 2);
    broken(&with_line(2, " 200 2000 1000"), 2, 1);
    broken(&with_line(2, ""), 2, 1);
    broken(&with_line(1, ""), 1, 1);
    broken(&with_line(6, ""), 6, 1);
    broken(b"", 1, 1);
    broken(b"\n", 1, 1);
    broken(b" ", 1, 1);
}

#[test]
fn a_leading_zero() {
    broken(&with_line(4, "0 00 3 1000"), 4, 2);
    broken(&with_line(4, "0 0 03 1000"), 4, 3);
    broken(&with_line(1, "01"), 1, 1);
    broken(&with_line(6, "00"), 6, 1);
}

#[test]
fn a_number_above_the_last_tick() {
    broken(&with_line(4, "0 0 3 1000000000001"), 4, 4);
    broken(&with_line(4, "0 0 3 18446744073709551616"), 4, 4);
    broken(&with_line(4, "0 0 3 18446744073709552616"), 4, 4);
    let nines = "9".repeat(60_000);
    broken(&with_line(4, &format!("0 0 {nines} 1")), 4, 3);
    assert!(read_plan(&with_line(4, "0 0 3 1000000000000")).is_ok());
    assert!(read_plan(&with_line(2, "1000000000000 0 1000000000000")).is_ok());
}

#[test]
fn a_count_out_of_its_range() {
    broken(&with_line(1, "65"), 1, 1);
    broken(&with_line(1, "0"), 1, 1);
    broken(&with_line(1, "65 1"), 1, 1);
    broken(&with_line(1, "1 65"), 1, 2);
    broken(&with_line(3, "1025"), 3, 1);
    broken(&with_line(6, "257"), 6, 1);
    broken(b"65", 1, 1);
    broken(&with_line(3, "1024"), 6, 2);
    broken(&with_line(6, "256"), 7, 1);
    broken(&with_line(1, "64"), 3, 2);
}

#[test]
fn a_line_that_ends_too_soon() {
    broken(&with_line(2, "200 2000"), 2, 3);
    broken(&with_line(2, "200"), 2, 2);
    broken(&with_line(2, "200 "), 2, 2);
    broken(&cut(1, "200 2000"), 2, 3);
    broken(&cut(1, "200 2000 "), 2, 3);
    broken(&cut(1, "200"), 2, 2);
}

#[test]
fn more_fields_than_are_due() {
    broken(&with_line(2, "200 2000 1000 "), 2, 4);
    broken(&with_line(2, "200 2000 1000 5"), 2, 4);
    broken(&with_line(2, "200 2000 1000 x y"), 2, 4);
    broken(&with_line(1, "1 "), 1, 2);
    broken(&with_line(6, "0 0"), 6, 2);
    broken(&cut(1, "200 2000 1000 "), 2, 4);
    broken(&cut(1, "200 2000 1000 5"), 2, 4);
}

#[test]
fn a_line_without_its_line_feed() {
    broken(&cut(1, "200 2000 1000"), 2, 3);
    broken(&cut(0, "1"), 1, 1);
    broken(&cut(5, "0"), 6, 1);
    broken(&cut(3, "0 0 3 1000"), 4, 4);
}

#[test]
fn a_line_that_is_missing() {
    for lines in 1..6 {
        broken(&cut(lines, ""), lines as u64 + 1, 1);
    }
}

#[test]
fn bytes_after_the_last_line() {
    broken(&cut(6, "0\n"), 7, 1);
    broken(&cut(6, "\n"), 7, 1);
    broken(&cut(6, " "), 7, 1);
    broken(&cut(6, "x"), 7, 1);
}

#[test]
fn the_first_on_a_line_is_the_break() {
    broken(&cut(1, "200 x"), 2, 2);
    broken(&cut(1, "200 x 1000 5"), 2, 2);
    broken(&with_line(2, "200 x 01 5"), 2, 2);
    broken(&with_line(2, "200 x"), 2, 2);
    broken(&with_line(2, "200 2000 x 5"), 2, 3);
}

/// A plan with full lists, of which the first filings have another number.
fn full_plan(number: &str, other: &str, others: usize) -> String {
    let line = |count, number: &str| vec![number; count].join(" ") + "\n";
    let labs = "64\n".to_string() + &line(3, number).repeat(64);
    let filings = line(4, other).repeat(others) + &line(4, number).repeat(1024 - others);
    let withdrawals = "256\n".to_string() + &line(2, number).repeat(256);
    labs + "1024\n" + &filings + &withdrawals
}

#[test]
fn too_many_bytes_are_no_plan_whatever_they_hold() {
    let last = "1000000000000";
    let long = full_plan(last, last, 0);
    assert_eq!(long.len(), 67_212);
    assert_eq!(read_plan(long.as_bytes()), Err(Fault::TooLong));
    for bytes in [long.into_bytes(), vec![b'x'; 65_537], vec![0; 1 << 20]] {
        assert_eq!(play(&bytes), b"big\n");
    }
    broken(&[b'x'; 65_536], 1, 1);
    broken(&[b'1'; 65_536], 1, 1);
}

#[test]
fn a_plan_may_have_65_536_bytes() {
    // 34 lines with four numbers that are 12 digits shorter are 1,632 bytes
    // less, so 44 bytes may come back.
    let last = "1000000000000";
    let text = full_plan(last, "1", 34);
    assert_eq!(text.len(), 65_580);
    let text = text.replacen("1000000000000", "10", 4);
    assert_eq!(text.len(), 65_536);
    let plan = read_plan(text.as_bytes()).unwrap();
    assert_eq!(plan.labs.len(), 64);
    assert_eq!(plan.filings.len(), 1024);
    assert_eq!(plan.withdrawals.len(), 256);
    assert_eq!(plan.first_withdrawal_line(), 1 + 64 + 1 + 1024 + 2);
    let longer = text.replacen("10 ", "100 ", 1);
    assert_eq!(longer.len(), 65_537);
    assert_eq!(read_plan(longer.as_bytes()), Err(Fault::TooLong));
}

#[test]
fn a_plan_is_written_in_one_way() {
    // Whatever is read as a plan is what writes it.
    let write = |plan: &Plan| {
        let mut text = format!("{}\n", plan.labs.len());
        for lab in &plan.labs {
            text += &format!("{} {} {}\n", lab.rate, lab.ceiling, lab.threshold);
        }
        text += &format!("{}\n", plan.filings.len());
        for ask in &plan.filings {
            text += &format!("{} {} {} {}\n", ask.tick, ask.lab, ask.length, ask.due);
        }
        text += &format!("{}\n", plan.withdrawals.len());
        for ask in &plan.withdrawals {
            text += &format!("{} {}\n", ask.tick, ask.number);
        }
        text.into_bytes()
    };
    let plan = PLAN.replace("1000\n0\n", "1000\n1\n6 1\n").into_bytes();
    for place in 0..plan.len() {
        for byte in 0..=255 {
            let mut changed = plan.clone();
            changed[place] = byte;
            if let Ok(read) = read_plan(&changed) {
                assert_eq!(write(&read), changed);
            }
            changed.truncate(place);
            assert!(read_plan(&changed).is_err());
        }
    }
}
