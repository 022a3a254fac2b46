//! Turn rules: whose turn it is where several labs could begin.
//!
//! A turn rule is an order of the numbers 0 to 63.

use crate::limits::MOST_LABS;

const LABS: u64 = MOST_LABS as u64;

/// An order of the numbers 0 to 63 that changes as they are served.
pub trait TurnRule {
    /// Whether a comes before b; no for equal numbers and numbers above 63.
    fn ahead(&self, a: u64, b: u64) -> bool;

    /// Says that the number had its turn; nothing happens above 63.
    fn served(&mut self, number: u64);
}

/// Turns that go round: the order begins right behind who was served last.
#[derive(Clone, Copy, Debug, Default, PartialEq, Eq)]
pub struct Circular {
    first: u64,
}

impl Circular {
    /// The order 0 to 63.
    pub fn new() -> Self {
        Self::default()
    }

    fn place(&self, number: u64) -> u64 {
        (number + LABS - self.first) % LABS
    }
}

impl TurnRule for Circular {
    fn ahead(&self, a: u64, b: u64) -> bool {
        a < LABS && b < LABS && self.place(a) < self.place(b)
    }

    fn served(&mut self, number: u64) {
        if number < LABS {
            self.first = (number + 1) % LABS;
        }
    }
}

/// Turns in which who was served goes to the end, and nobody else moves.
#[derive(Clone, Copy, Debug, PartialEq, Eq)]
pub struct LongestUnserved {
    places: [u8; MOST_LABS],
}

impl LongestUnserved {
    /// The order 0 to 63.
    pub fn new() -> Self {
        LongestUnserved {
            places: std::array::from_fn(|number| number as u8),
        }
    }
}

impl Default for LongestUnserved {
    fn default() -> Self {
        Self::new()
    }
}

impl TurnRule for LongestUnserved {
    fn ahead(&self, a: u64, b: u64) -> bool {
        a < LABS && b < LABS && self.places[a as usize] < self.places[b as usize]
    }

    fn served(&mut self, number: u64) {
        if number >= LABS {
            return;
        }
        let old = self.places[number as usize];
        for place in &mut self.places {
            *place -= u8::from(*place > old);
        }
        self.places[number as usize] = (LABS - 1) as u8;
    }
}
