//! Turn rules: the worked orders, the laws and numbers of any size.

mod common;

use common::Random;
use plain::{Circular, LongestUnserved, TurnRule};

/// The numbers 0 to 63 in the order of a rule.
fn order(turns: &impl TurnRule) -> Vec<u64> {
    let mut numbers: Vec<u64> = (0..64).collect();
    numbers.sort_by_key(|&number| (0..64).filter(|&other| turns.ahead(other, number)).count());
    numbers
}

fn served<T: TurnRule>(mut turns: T, numbers: &[u64]) -> Vec<u64> {
    for &number in numbers {
        turns.served(number);
    }
    order(&turns)
}

fn circular(numbers: &[u64]) -> Vec<u64> {
    served(Circular::new(), numbers)
}

fn longest_unserved(numbers: &[u64]) -> Vec<u64> {
    served(LongestUnserved::new(), numbers)
}

#[test]
fn both_begin_as_0_to_63() {
    let all: Vec<u64> = (0..64).collect();
    assert_eq!(circular(&[]), all);
    assert_eq!(longest_unserved(&[]), all);
}

#[test]
fn case_9_only_1_was_served() {
    let expected: Vec<u64> = (2..64).chain([0, 1]).collect();
    assert_eq!(circular(&[1]), expected);
    let expected: Vec<u64> = [0].into_iter().chain(2..64).chain([1]).collect();
    assert_eq!(longest_unserved(&[1]), expected);
}

#[test]
fn case_15_only_0_or_only_63_or_0_and_then_2() {
    let after_0: Vec<u64> = (1..64).chain([0]).collect();
    assert_eq!(circular(&[0]), after_0);
    assert_eq!(longest_unserved(&[0]), after_0);
    let all: Vec<u64> = (0..64).collect();
    assert_eq!(circular(&[63]), all);
    assert_eq!(longest_unserved(&[63]), all);

    let expected: Vec<u64> = (3..64).chain([0, 1, 2]).collect();
    assert_eq!(circular(&[0, 2]), expected);
    let expected: Vec<u64> = [1].into_iter().chain(3..64).chain([0, 2]).collect();
    assert_eq!(longest_unserved(&[0, 2]), expected);
}

#[test]
fn who_was_served_before_makes_no_difference_to_circular_turns() {
    assert_eq!(circular(&[5, 9, 63, 17]), circular(&[17]));
}

fn check_large_numbers<T: TurnRule + Clone + PartialEq + std::fmt::Debug>(turns: &T) {
    for large in [64, 65, 1 << 32, u64::MAX - 63, u64::MAX] {
        let mut same = turns.clone();
        same.served(large);
        assert_eq!(same, *turns);
        for number in [0, 1, 63, large, u64::MAX] {
            assert!(!turns.ahead(large, number));
            assert!(!turns.ahead(number, large));
        }
    }
    for number in 0..64 {
        assert!(!turns.ahead(number, number));
    }
}

#[test]
fn numbers_above_63_are_answered_no_and_change_nothing() {
    let mut circular = Circular::new();
    let mut longest = LongestUnserved::new();
    for number in [0, 63, 31, 31, 1] {
        check_large_numbers(&circular);
        check_large_numbers(&longest);
        circular.served(number);
        longest.served(number);
    }
}

/// Serves numbers at random and checks the three laws each time.
fn check_laws(mut turns: impl TurnRule) {
    let mut random = Random::new(11);
    for _ in 0..200 {
        let before = order(&turns);
        let k = random.below(64);
        turns.served(k);
        let after = order(&turns);

        let mut sorted = after.clone();
        sorted.sort();
        assert_eq!(sorted, (0..64).collect::<Vec<u64>>());

        let place = before.iter().position(|&number| number == k).unwrap();
        let behind = &before[place + 1..];
        let place = after.iter().position(|&number| number == k).unwrap();
        let ahead_now: Vec<u64> = after[..place]
            .iter()
            .copied()
            .filter(|number| behind.contains(number))
            .collect();
        assert_eq!(ahead_now, behind);
    }
}

#[test]
fn both_keep_the_laws() {
    check_laws(Circular::new());
    check_laws(LongestUnserved::new());
}

#[test]
fn longest_unserved_turns_are_a_list_whose_served_number_goes_last() {
    let mut random = Random::new(5);
    let mut turns = LongestUnserved::new();
    let mut list: Vec<u64> = (0..64).collect();
    for _ in 0..300 {
        let k = random.below(64);
        turns.served(k);
        list.retain(|&number| number != k);
        list.push(k);
        assert_eq!(order(&turns), list);
    }
}
