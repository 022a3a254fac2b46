//! The calls of `hosts/nehpudra.h`, and all that is unsafe in this crate.
//!
//! Each block below rests on what the header promises: a call returns whatever
//! its numbers are; it reads and writes what it is given by pointer, as far as
//! the lengths beside it reach, and the gate's own heap block, and nothing
//! else; and it keeps no pointer to what it was given. The types here are laid
//! out as those of the header, and every pattern of bits is a value of each.
//!
//! The library takes what it is given by a pointer that is not const as its
//! own to write for the length of the call, also where it only reads. So the
//! gate and the list are borrowed mutably by every call, and an outlook is no
//! exception; its rows it only reads.

use std::ffi::c_void;
use std::mem::{offset_of, size_of};
use std::ptr;

use crate::gate::Entry;
use crate::row::Row;

/// The gate of the header. Whoever has it owns the heap block that it points
/// to, so it can be moved but neither copied nor cloned, and freeing it is left
/// to drop.
///
/// The pointer keeps it from being sent to another thread or shared with one,
/// as the header wants it.
#[repr(C)]
#[derive(Debug)]
pub(crate) struct Handle {
    full: u8,
    at: *mut c_void,
}

/// A number, where the status is 0.
#[repr(C)]
#[derive(Clone, Copy)]
pub(crate) struct Told {
    pub status: u64,
    pub number: u64,
}

/// Whose turn it is, where the status is 0.
#[repr(C)]
#[derive(Clone, Copy)]
pub(crate) struct TurnTold {
    pub status: u64,
    pub kind: u64,
    pub until: u64,
    pub lab: u64,
    pub number: u64,
    pub length: u64,
}

/// What has ended, where the status is 0.
#[repr(C)]
#[derive(Clone, Copy)]
pub(crate) struct EndedTold {
    pub status: u64,
    pub number: u64,
    pub held: u64,
    pub response: u64,
}

/// A layout that differed from the header's would make every call unsound, so
/// the crate does not compile with one.
const _: () = {
    assert!(size_of::<Row>() == 7 * size_of::<u64>());
    assert!(offset_of!(Row, level) == 4 * size_of::<u64>());
    assert!(offset_of!(Row, left) == 6 * size_of::<u64>());
    assert!(size_of::<Entry>() == 3 * size_of::<u64>());
    assert!(offset_of!(Entry, end) == 2 * size_of::<u64>());
    assert!(size_of::<Handle>() == 2 * size_of::<*mut c_void>());
    assert!(offset_of!(Handle, at) == size_of::<*mut c_void>());
};

unsafe extern "C" {
    fn nehpudra_server_row(row: *mut Row, rate: u64, ceiling: u64, threshold: u64) -> u64;
    fn nehpudra_spaced_row(row: *mut Row, rate: u64) -> u64;
    fn nehpudra_new(gate: *mut Handle, turns: u64) -> u64;
    fn nehpudra_free(gate: *mut Handle);
    fn nehpudra_open(gate: *mut Handle, rows: *mut Row, labs: usize, order: u64) -> u64;
    fn nehpudra_file(
        gate: *mut Handle,
        rows: *mut Row,
        labs: usize,
        tick: u64,
        lab: u64,
        length: u64,
        due: u64,
    ) -> Told;
    fn nehpudra_withdraw(
        gate: *mut Handle,
        rows: *mut Row,
        labs: usize,
        tick: u64,
        number: u64,
    ) -> Told;
    fn nehpudra_begin(gate: *mut Handle, rows: *mut Row, labs: usize, tick: u64) -> TurnTold;
    fn nehpudra_end(gate: *mut Handle, rows: *mut Row, labs: usize, tick: u64) -> EndedTold;
    fn nehpudra_outlook(
        gate: *mut Handle,
        rows: *const Row,
        labs: usize,
        lab: u64,
        list: *mut Entry,
        places: usize,
    ) -> Told;
    fn nehpudra_play(plan: *const u8, length: usize, out: *mut u8, room: usize) -> Told;
}

/// Makes a server row, and answers the status.
pub(crate) fn server_row(row: &mut Row, rate: u64, ceiling: u64, threshold: u64) -> u64 {
    // SAFETY: the row is borrowed mutably for the length of the call.
    unsafe { nehpudra_server_row(row, rate, ceiling, threshold) }
}

/// Makes a spaced row, and answers the status.
pub(crate) fn spaced_row(row: &mut Row, rate: u64) -> u64 {
    // SAFETY: the row is borrowed mutably for the length of the call.
    unsafe { nehpudra_spaced_row(row, rate) }
}

/// Plays a plan into the head of `out`.
pub(crate) fn play(plan: &[u8], out: &mut [u8]) -> Told {
    // SAFETY: the plan can be read and `out` be written for their lengths, which
    // stand beside them, and the two do not overlap, since `out` is borrowed
    // mutably.
    unsafe { nehpudra_play(plan.as_ptr(), plan.len(), out.as_mut_ptr(), out.len()) }
}

impl Handle {
    /// Makes a gate, and answers the status too. The gate is there to be dropped
    /// whatever the status says; without memory it holds none.
    pub fn new(turns: u64) -> (Self, u64) {
        let mut handle = Handle {
            full: 0,
            at: ptr::null_mut(),
        };
        // SAFETY: the handle is empty, as the header wants one to begin, and it
        // is this function's own.
        let status = unsafe { nehpudra_new(&mut handle, turns) };
        (handle, status)
    }

    /// Opens the gate, and answers the status.
    pub fn open(&mut self, rows: &mut [Row], order: u64) -> u64 {
        // SAFETY: a handle is written by the library alone, and it and the rows
        // are borrowed mutably for the length of the call; so also below.
        unsafe { nehpudra_open(self, rows.as_mut_ptr(), rows.len(), order) }
    }

    /// Files an import of a lab.
    pub fn file(&mut self, rows: &mut [Row], tick: u64, lab: u64, length: u64, due: u64) -> Told {
        let (at, labs) = (rows.as_mut_ptr(), rows.len());
        // SAFETY: as in open.
        unsafe { nehpudra_file(self, at, labs, tick, lab, length, due) }
    }

    /// Withdraws a ticket.
    pub fn withdraw(&mut self, rows: &mut [Row], tick: u64, number: u64) -> Told {
        // SAFETY: as in open.
        unsafe { nehpudra_withdraw(self, rows.as_mut_ptr(), rows.len(), tick, number) }
    }

    /// Begins the next import.
    pub fn begin(&mut self, rows: &mut [Row], tick: u64) -> TurnTold {
        // SAFETY: as in open.
        unsafe { nehpudra_begin(self, rows.as_mut_ptr(), rows.len(), tick) }
    }

    /// Ends the running import.
    pub fn end(&mut self, rows: &mut [Row], tick: u64) -> EndedTold {
        // SAFETY: as in open.
        unsafe { nehpudra_end(self, rows.as_mut_ptr(), rows.len(), tick) }
    }

    /// Lists when the waiting tickets of a lab will run.
    pub fn outlook(&mut self, rows: &[Row], lab: u64, list: &mut [Entry]) -> Told {
        let (at, labs) = (rows.as_ptr(), rows.len());
        // SAFETY: as in open, but the rows are only read; the list is borrowed
        // mutably too, and so does not overlap them.
        unsafe { nehpudra_outlook(self, at, labs, lab, list.as_mut_ptr(), list.len()) }
    }
}

impl Drop for Handle {
    fn drop(&mut self) {
        // SAFETY: the handle was written by the library alone, nobody else has
        // the heap block, and nobody has the handle after this.
        unsafe { nehpudra_free(self) }
    }
}
