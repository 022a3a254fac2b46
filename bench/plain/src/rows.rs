//! Rows: the budget of one lab.
//!
//! A row is a plain value and a host may store any number in it. A number out
//! of its range is read as the nearest lawful one, and only read so: rest,
//! ended and restart write the level, the mark and the ticks left, but never
//! the rate, the ceiling or the threshold.

use crate::limits::{GREATEST_CEILING, GREATEST_RATE, LAST_TICK, LEAST_RATE, WHOLE_RATE};
use crate::refusal::{Refusal, require};

/// A row that saves up to a ceiling and, once in debt, waits for a threshold.
#[derive(Clone, Copy, Debug, PartialEq, Eq)]
pub struct ServerRow {
    /// What each tick of rest adds, in thousandths of a tick.
    pub rate: u64,
    /// What the level is cut at.
    pub ceiling: u64,
    /// The level at which a row that is not able becomes able.
    pub threshold: u64,
    /// What is saved up, or owed where it is negative.
    pub level: i64,
    /// The mark that says able; it counts while the level is 0 or more.
    pub able: bool,
}

impl ServerRow {
    /// A row as after a restart, or refusal 1, 2 or 3.
    pub fn new(rate: u64, ceiling: u64, threshold: u64) -> Result<Self, Refusal> {
        check_rate(rate)?;
        require(ceiling <= GREATEST_CEILING, Refusal::CeilingOutOfRange)?;
        require(threshold <= ceiling, Refusal::ThresholdAboveCeiling)?;
        Ok(ServerRow {
            rate,
            ceiling,
            threshold,
            level: 0,
            able: threshold == 0,
        })
    }

    /// Returns the row to its beginning.
    pub fn restart(&mut self) {
        self.level = 0;
        self.able = self.threshold() == 0;
    }

    /// Tells the row that ticks passed without a run; no above the last tick.
    pub fn rest(&mut self, ticks: u64) -> bool {
        if ticks > LAST_TICK {
            return false;
        }
        self.rest_long(ticks);
        true
    }

    /// Tells the row that a run has ended; no above the last tick or if not able.
    pub fn ended(&mut self, ticks: u64) -> bool {
        if ticks > LAST_TICK || !self.able() {
            return false;
        }
        let level = self.level() - (cost(self.rate()) * ticks) as i64;
        self.level = level;
        self.able = level >= 0;
        true
    }

    /// Whether an import may begin.
    pub fn able(&self) -> bool {
        let level = self.level();
        level >= self.threshold() as i64 || (self.able && level >= 0)
    }

    /// The ticks of rest that are still missing.
    pub fn wake(&self) -> u64 {
        if self.able() {
            return 0;
        }
        let missing = self.threshold() as i64 - self.level();
        (missing as u64).div_ceil(self.rate())
    }

    /// The rate, as it is read.
    pub fn rate(&self) -> u64 {
        read_rate(self.rate)
    }

    /// The level, as it is read.
    pub fn level(&self) -> i64 {
        let lowest = -((cost(self.rate()) * LAST_TICK) as i64);
        self.level.clamp(lowest, self.ceiling() as i64)
    }

    /// The ceiling, as it is read.
    pub fn ceiling(&self) -> u64 {
        self.ceiling.min(GREATEST_CEILING)
    }

    /// The threshold, as it is read.
    pub fn threshold(&self) -> u64 {
        self.threshold.min(self.ceiling())
    }

    /// Rest for any number of ticks, also for more than the last tick.
    pub(crate) fn rest_long(&mut self, ticks: u64) {
        if ticks == 0 {
            return;
        }
        let gain = self.rate().saturating_mul(ticks);
        let raised = self.level().saturating_add_unsigned(gain);
        let level = raised.min(self.ceiling() as i64);
        self.able = self.able() || level >= self.threshold() as i64;
        self.level = level;
    }
}

/// A row that saves nothing up and pauses after each run.
#[derive(Clone, Copy, Debug, PartialEq, Eq)]
pub struct SpacedRow {
    /// The share of the time that a run and its pause may use, in thousandths.
    pub rate: u64,
    /// The ticks that are left of the pause.
    pub left: u64,
}

impl SpacedRow {
    /// A row as after a restart, or refusal 1.
    pub fn new(rate: u64) -> Result<Self, Refusal> {
        check_rate(rate)?;
        Ok(SpacedRow { rate, left: 0 })
    }

    /// Returns the row to its beginning.
    pub fn restart(&mut self) {
        self.left = 0;
    }

    /// Tells the row that ticks passed without a run; no above the last tick.
    pub fn rest(&mut self, ticks: u64) -> bool {
        if ticks > LAST_TICK {
            return false;
        }
        self.rest_long(ticks);
        true
    }

    /// Tells the row that a run has ended; no above the last tick or if not able.
    pub fn ended(&mut self, ticks: u64) -> bool {
        if ticks > LAST_TICK || !self.able() {
            return false;
        }
        self.left = pause(self.rate(), ticks);
        true
    }

    /// Whether an import may begin.
    pub fn able(&self) -> bool {
        self.left == 0
    }

    /// The ticks of rest that are still missing.
    pub fn wake(&self) -> u64 {
        self.left.min(pause(self.rate(), LAST_TICK))
    }

    /// The rate, as it is read.
    pub fn rate(&self) -> u64 {
        read_rate(self.rate)
    }

    /// What the rate still has to make up for: the level is never above 0.
    pub fn level(&self) -> i64 {
        -((self.rate() * self.wake()) as i64)
    }

    /// The ceiling, which is 0.
    pub fn ceiling(&self) -> u64 {
        0
    }

    /// The threshold, which is 0.
    pub fn threshold(&self) -> u64 {
        0
    }

    /// Rest for any number of ticks, also for more than the last tick.
    pub(crate) fn rest_long(&mut self, ticks: u64) {
        if ticks > 0 {
            self.left = self.wake().saturating_sub(ticks);
        }
    }
}

/// A row of either kind; it behaves as the row that it holds.
#[derive(Clone, Copy, Debug, PartialEq, Eq)]
pub enum Row {
    /// A row that saves up to a ceiling.
    Server(ServerRow),
    /// A row that pauses after each run.
    Spaced(SpacedRow),
}

impl Row {
    /// Returns the row to its beginning.
    pub fn restart(&mut self) {
        match self {
            Row::Server(row) => row.restart(),
            Row::Spaced(row) => row.restart(),
        }
    }

    /// Tells the row that ticks passed without a run; no above the last tick.
    pub fn rest(&mut self, ticks: u64) -> bool {
        match self {
            Row::Server(row) => row.rest(ticks),
            Row::Spaced(row) => row.rest(ticks),
        }
    }

    /// Tells the row that a run has ended; no above the last tick or if not able.
    pub fn ended(&mut self, ticks: u64) -> bool {
        match self {
            Row::Server(row) => row.ended(ticks),
            Row::Spaced(row) => row.ended(ticks),
        }
    }

    /// Whether an import may begin.
    pub fn able(&self) -> bool {
        match self {
            Row::Server(row) => row.able(),
            Row::Spaced(row) => row.able(),
        }
    }

    /// The ticks of rest that are still missing.
    pub fn wake(&self) -> u64 {
        match self {
            Row::Server(row) => row.wake(),
            Row::Spaced(row) => row.wake(),
        }
    }

    /// The rate, as it is read.
    pub fn rate(&self) -> u64 {
        match self {
            Row::Server(row) => row.rate(),
            Row::Spaced(row) => row.rate(),
        }
    }

    /// The level, as it is read.
    pub fn level(&self) -> i64 {
        match self {
            Row::Server(row) => row.level(),
            Row::Spaced(row) => row.level(),
        }
    }

    /// The ceiling, as it is read.
    pub fn ceiling(&self) -> u64 {
        match self {
            Row::Server(row) => row.ceiling(),
            Row::Spaced(row) => row.ceiling(),
        }
    }

    /// The threshold, as it is read.
    pub fn threshold(&self) -> u64 {
        match self {
            Row::Server(row) => row.threshold(),
            Row::Spaced(row) => row.threshold(),
        }
    }

    /// Rest for any number of ticks, also for more than the last tick.
    pub(crate) fn rest_long(&mut self, ticks: u64) {
        match self {
            Row::Server(row) => row.rest_long(ticks),
            Row::Spaced(row) => row.rest_long(ticks),
        }
    }
}

impl From<ServerRow> for Row {
    fn from(row: ServerRow) -> Self {
        Row::Server(row)
    }
}

impl From<SpacedRow> for Row {
    fn from(row: SpacedRow) -> Self {
        Row::Spaced(row)
    }
}

fn check_rate(rate: u64) -> Result<(), Refusal> {
    let lawful = (LEAST_RATE..=GREATEST_RATE).contains(&rate);
    require(lawful, Refusal::RateOutOfRange)
}

fn read_rate(rate: u64) -> u64 {
    rate.clamp(LEAST_RATE, GREATEST_RATE)
}

/// What each tick of a run takes, at a lawful rate.
fn cost(rate: u64) -> u64 {
    WHOLE_RATE - rate
}

/// The pause after a run of at most the last tick's length, at a lawful rate.
fn pause(rate: u64, ticks: u64) -> u64 {
    (cost(rate) * ticks).div_ceil(rate)
}
