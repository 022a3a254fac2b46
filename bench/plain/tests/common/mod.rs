//! What several tests use: a small random source, odd numbers and odd rows.

#![allow(dead_code)]

use plain::{Row, ServerRow, SpacedRow};

pub const LAST: u64 = 1_000_000_000_000;

/// A seeded xorshift.
pub struct Random(u64);

impl Random {
    pub fn new(seed: u64) -> Self {
        Random(seed | 1)
    }

    pub fn next(&mut self) -> u64 {
        self.0 ^= self.0 << 13;
        self.0 ^= self.0 >> 7;
        self.0 ^= self.0 << 17;
        self.0
    }

    pub fn below(&mut self, limit: u64) -> u64 {
        self.next() % limit
    }

    pub fn pick<T: Copy>(&mut self, from: &[T]) -> T {
        from[self.below(from.len() as u64) as usize]
    }

    pub fn yes(&mut self) -> bool {
        self.below(2) == 0
    }

    /// A number that is often near a limit.
    pub fn odd(&mut self) -> u64 {
        const EDGES: [u64; 22] = [
            0,
            1,
            2,
            15,
            16,
            17,
            63,
            64,
            65,
            200,
            899,
            900,
            998,
            999,
            1000,
            1_000_000,
            1_000_000_000,
            LAST - 1,
            LAST,
            LAST + 1,
            i64::MAX as u64,
            u64::MAX,
        ];
        match self.below(4) {
            0 => self.next(),
            1 => self.below(3000),
            2 => self.pick(&EDGES),
            _ => self
                .pick(&EDGES)
                .wrapping_add(self.below(5))
                .wrapping_sub(2),
        }
    }

    /// A level of any size and sign.
    pub fn odd_level(&mut self) -> i64 {
        match self.below(4) {
            0 => self.next() as i64,
            1 => i64::MIN,
            2 => self.below(6000) as i64 - 3000,
            _ => (self.odd() as i64).wrapping_neg(),
        }
    }

    /// A server row with any numbers in it.
    pub fn odd_server(&mut self) -> ServerRow {
        ServerRow {
            rate: self.odd(),
            ceiling: self.odd(),
            threshold: self.odd(),
            level: self.odd_level(),
            able: self.yes(),
        }
    }

    /// A row of either kind with any numbers in it.
    pub fn odd_row(&mut self) -> Row {
        if self.yes() {
            Row::Server(self.odd_server())
        } else {
            Row::Spaced(SpacedRow {
                rate: self.odd(),
                left: self.odd(),
            })
        }
    }

    /// A row of either kind whose rate is small.
    pub fn small_row(&mut self) -> Row {
        let rate = 1 + self.below(10);
        if self.yes() {
            let ceiling = self.below(5000);
            let threshold = self.below(ceiling + 1);
            Row::Server(ServerRow::new(rate, ceiling, threshold).unwrap())
        } else {
            Row::Spaced(SpacedRow::new(rate).unwrap())
        }
    }
}

/// The server row of the worked cases.
pub fn case_row() -> Row {
    Row::Server(ServerRow::new(200, 2000, 1000).unwrap())
}
