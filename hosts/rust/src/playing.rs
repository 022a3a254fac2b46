//! Playing plans.

use std::error::Error;
use std::fmt;

use crate::foreign;
use crate::gate::NO_MEMORY;
use crate::refusal::{Refusal, unnamed};

/// Why nothing is played; nothing is written then.
#[derive(Clone, Copy, PartialEq, Eq, Debug)]
pub enum PlayError {
    /// There is not room enough for what is printed.
    TooShort {
        /// How many bytes are needed.
        needed: usize,
    },
    /// There is no memory for the play.
    OutOfMemory,
}

impl fmt::Display for PlayError {
    fn fmt(&self, f: &mut fmt::Formatter<'_>) -> fmt::Result {
        match self {
            PlayError::TooShort { needed } => write!(f, "{needed} bytes are needed"),
            PlayError::OutOfMemory => f.write_str("there is no memory for the play"),
        }
    }
}

impl Error for PlayError {}

/// Plays a plan, writes what is printed at the head of `out`, and answers how
/// many bytes that is.
pub fn play(plan: &[u8], out: &mut [u8]) -> Result<usize, PlayError> {
    const TOO_SHORT: u64 = Refusal::ListTooShort as u64;
    let told = foreign::play(plan, out);
    let bytes = told.number as usize;
    match told.status {
        0 => Ok(bytes),
        TOO_SHORT => Err(PlayError::TooShort { needed: bytes }),
        NO_MEMORY => Err(PlayError::OutOfMemory),
        status => unnamed(status),
    }
}
