//! Plans: labs, filings and withdrawals, written in bytes.
//!
//! Each of the three sections stands after its count on a line of its own. A
//! line has its numbers in decimal digits, one space between two and a line
//! feed at its end.

use crate::limits::{LAST_TICK, MOST_FILINGS, MOST_LABS, MOST_PLAN_BYTES, MOST_WITHDRAWALS};

/// The terms of the server row of one lab.
#[derive(Clone, Copy, Debug, PartialEq, Eq)]
pub struct Terms {
    /// The rate of the row.
    pub rate: u64,
    /// The ceiling of the row.
    pub ceiling: u64,
    /// The threshold of the row.
    pub threshold: u64,
}

/// A filing that is to be made at a tick.
#[derive(Clone, Copy, Debug, PartialEq, Eq)]
pub struct Filing {
    /// The tick at which it is made.
    pub tick: u64,
    /// The lab that files.
    pub lab: u64,
    /// The declared length.
    pub length: u64,
    /// The due tick.
    pub due: u64,
}

/// A withdrawal that is to be made at a tick.
#[derive(Clone, Copy, Debug, PartialEq, Eq)]
pub struct Withdrawal {
    /// The tick at which it is made.
    pub tick: u64,
    /// The number of the ticket.
    pub number: u64,
}

/// What is to be played; its numbers need not be lawful for rows or gate.
#[derive(Clone, Debug, PartialEq, Eq)]
pub struct Plan {
    /// The labs, by their numbers.
    pub labs: Vec<Terms>,
    /// The filings, in the order in which they are written.
    pub filings: Vec<Filing>,
    /// The withdrawals, in the order in which they are written.
    pub withdrawals: Vec<Withdrawal>,
}

impl Plan {
    /// The line on which the first lab stands; the others follow it.
    pub fn first_lab_line(&self) -> u64 {
        2
    }

    /// The line on which the first filing stands; the others follow it.
    pub fn first_filing_line(&self) -> u64 {
        self.first_lab_line() + self.labs.len() as u64 + 1
    }

    /// The line on which the first withdrawal stands; the others follow it.
    pub fn first_withdrawal_line(&self) -> u64 {
        self.first_filing_line() + self.filings.len() as u64 + 1
    }
}

/// Why bytes are no plan.
#[derive(Clone, Copy, Debug, PartialEq, Eq)]
pub enum Fault {
    /// There are more bytes than a plan may have.
    TooLong,
    /// The form of a plan is broken, first at this place.
    Break {
        /// The line, counted from 1.
        line: u64,
        /// The field of the line, counted from 1.
        field: u64,
    },
}

/// Reads the plan that the bytes write.
pub fn read_plan(bytes: &[u8]) -> Result<Plan, Fault> {
    if bytes.len() > MOST_PLAN_BYTES {
        return Err(Fault::TooLong);
    }
    let mut reader = Reader {
        rest: bytes,
        line: 1,
    };
    let labs = reader.section(1, MOST_LABS, |[rate, ceiling, threshold]| Terms {
        rate,
        ceiling,
        threshold,
    })?;
    let filings = reader.section(0, MOST_FILINGS, |[tick, lab, length, due]| Filing {
        tick,
        lab,
        length,
        due,
    })?;
    let withdrawals = reader.section(0, MOST_WITHDRAWALS, |[tick, number]| Withdrawal {
        tick,
        number,
    })?;
    reader.nothing_more()?;
    Ok(Plan {
        labs,
        filings,
        withdrawals,
    })
}

/// What is not read yet, and the line on which it begins or goes on.
struct Reader<'a> {
    rest: &'a [u8],
    line: u64,
}

impl Reader<'_> {
    /// Reads a count on a line of its own and then as many lines.
    fn section<const N: usize, T>(
        &mut self,
        least: usize,
        most: usize,
        make: impl Fn([u64; N]) -> T,
    ) -> Result<Vec<T>, Fault> {
        let count = self.count(least, most)?;
        let mut lines = Vec::with_capacity(count);
        for _ in 0..count {
            lines.push(make(self.numbers()?));
        }
        Ok(lines)
    }

    /// Reads a count; its range is asked before the end of its line.
    fn count(&mut self, least: usize, most: usize) -> Result<usize, Fault> {
        let count = self.number(1)?;
        if count < least as u64 || count > most as u64 {
            return Err(self.broken(1));
        }
        self.line_end(1)?;
        Ok(count as usize)
    }

    /// Reads a line of as many numbers as are asked for.
    fn numbers<const N: usize>(&mut self) -> Result<[u64; N], Fault> {
        let mut numbers = [0; N];
        for (place, number) in numbers.iter_mut().enumerate() {
            let field = place + 1;
            if field > 1 {
                self.space_before(field)?;
            }
            *number = self.number(field)?;
        }
        self.line_end(N)?;
        Ok(numbers)
    }

    /// Reads a field, which goes up to the next space or line feed, or the end.
    fn number(&mut self, field: usize) -> Result<u64, Fault> {
        let (number, rest) = number_in(self.rest).ok_or_else(|| self.broken(field))?;
        self.rest = rest;
        Ok(number)
    }

    /// Steps over the space before a field; the line may have ended too soon.
    fn space_before(&mut self, field: usize) -> Result<(), Fault> {
        match self.rest.strip_prefix(b" ") {
            Some(rest) => {
                self.rest = rest;
                Ok(())
            }
            None => Err(self.broken(field)),
        }
    }

    /// Steps over the line feed behind the last field that is due.
    fn line_end(&mut self, last: usize) -> Result<(), Fault> {
        match self.rest.split_first() {
            Some((b'\n', rest)) => {
                self.rest = rest;
                self.line += 1;
                Ok(())
            }
            Some(_) => Err(self.broken(last + 1)),
            None => Err(self.broken(last)),
        }
    }

    fn nothing_more(&self) -> Result<(), Fault> {
        if self.rest.is_empty() {
            Ok(())
        } else {
            Err(self.broken(1))
        }
    }

    fn broken(&self, field: usize) -> Fault {
        Fault::Break {
            line: self.line,
            field: field as u64,
        }
    }
}

/// The number in the first field of the bytes, and what follows the field.
fn number_in(bytes: &[u8]) -> Option<(u64, &[u8])> {
    let mut number = 0;
    let mut length = 0;
    for &byte in bytes {
        match byte {
            b'0'..=b'9' => number = number * 10 + u64::from(byte - b'0'),
            b' ' | b'\n' => break,
            _ => return None,
        }
        length += 1;
        if number > LAST_TICK {
            return None;
        }
    }
    let leading_zero = length > 1 && bytes[0] == b'0';
    if length == 0 || leading_zero {
        return None;
    }
    Some((number, &bytes[length..]))
}
