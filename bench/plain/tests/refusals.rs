//! The numbers and the texts of the refusals.

use plain::Refusal;

const ALL: [Refusal; 16] = [
    Refusal::RateOutOfRange,
    Refusal::CeilingOutOfRange,
    Refusal::ThresholdAboveCeiling,
    Refusal::LabCountOutOfRange,
    Refusal::RateSumTooLarge,
    Refusal::TableMismatch,
    Refusal::TickOutOfRange,
    Refusal::NoSuchLab,
    Refusal::LengthOutOfRange,
    Refusal::DueOutOfRange,
    Refusal::QueueFull,
    Refusal::TicketsExhausted,
    Refusal::NoSuchTicket,
    Refusal::LockHeld,
    Refusal::LockFree,
    Refusal::ListTooShort,
];

#[test]
fn numbers_are_1_to_16() {
    for (number, refusal) in (1..).zip(ALL) {
        assert_eq!(refusal.number(), number);
    }
}

#[test]
fn a_refusal_reads_with_number_and_name() {
    assert_eq!(
        Refusal::TickOutOfRange.to_string(),
        "refusal 7: TickOutOfRange"
    );
}
