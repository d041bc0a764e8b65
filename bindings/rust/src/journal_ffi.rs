//! The archive's functions for journals, over memory that Rust owns. Each pointer is that of a slice with that slice's
//! own length, as in [`Memory::lend`].
#![allow(unsafe_code)]

use crate::ffi::Memory;
use crate::refusal::NotCarriedOut;

pub const ENTRY_BYTES: usize = 24;
pub const TRAILER_BYTES: usize = 12;
pub const SEGMENT: usize = 2048;

/// What is known of a journal: used, segments, open, waiting.
pub type Known = [u64; 4];
pub const USED: usize = 0;
pub const SEGMENTS: usize = 1;
pub const OPEN: usize = 2;
pub const WAITING: usize = 3;

/// A number of refusal, and the length or the entry that goes with it.
pub type Outcome = [u64; 2];

#[rustfmt::skip] // a slice a line
extern "C" {
    fn meter_record(
        numbers: *mut u32, numbers_len: usize,
        serials: *mut u64, serials_len: usize,
        parents: *mut u32, parents_len: usize,
        crowns: *mut u32, crowns_len: usize,
        amounts: *mut u64, amounts_len: usize,
        log: *mut u32, log_len: usize,
        calls: *const u64, calls_len: usize,
        answers: *mut u64, answers_len: usize,
        journal: *mut u8, journal_len: usize,
        known: *mut u64, known_len: usize,
    ) -> u32;
    fn meter_replay(
        numbers: *mut u32, numbers_len: usize,
        serials: *mut u64, serials_len: usize,
        parents: *mut u32, parents_len: usize,
        crowns: *mut u32, crowns_len: usize,
        amounts: *mut u64, amounts_len: usize,
        log: *mut u32, log_len: usize,
        journal: *const u8, journal_len: usize,
        result: *mut u64, result_len: usize,
    ) -> u32;
    fn meter_flush(
        journal: *mut u8, journal_len: usize,
        known: *mut u64, known_len: usize,
        result: *mut u64, result_len: usize,
    ) -> u32;
    fn meter_append(
        journal: *mut u8, journal_len: usize,
        used: usize,
        entries: *const u8, entries_len: usize,
        result: *mut u64, result_len: usize,
    ) -> u32;
    fn meter_known(
        journal: *const u8, journal_len: usize,
        known: *mut u64, known_len: usize,
        result: *mut u64, result_len: usize,
    ) -> u32;
}

/// Carries out a list of calls and writes it. What is returned is 0 where it was carried out.
#[rustfmt::skip] // a slice a line
pub fn record(memory: &mut Memory, calls: &[u64], answers: &mut [u64], journal: &mut [u8], known: &mut Known) -> u32 {
    // SAFETY: the archive's function is proved to stay within the slices, whatever they hold.
    unsafe {
        meter_record(
            memory.numbers.as_mut_ptr(), memory.numbers.len(),
            memory.serials.as_mut_ptr(), memory.serials.len(),
            memory.parents.as_mut_ptr(), memory.parents.len(),
            memory.crowns.as_mut_ptr(), memory.crowns.len(),
            memory.amounts.as_mut_ptr(), memory.amounts.len(),
            memory.log.as_mut_ptr(), memory.log.len(),
            calls.as_ptr(), calls.len(),
            answers.as_mut_ptr(), answers.len(),
            journal.as_mut_ptr(), journal.len(),
            known.as_mut_ptr(), known.len(),
        )
    }
}

#[rustfmt::skip] // a slice a line
pub fn replay(memory: &mut Memory, journal: &[u8]) -> Outcome {
    // SAFETY: as for `record`.
    outcome(|result| unsafe {
        meter_replay(
            memory.numbers.as_mut_ptr(), memory.numbers.len(),
            memory.serials.as_mut_ptr(), memory.serials.len(),
            memory.parents.as_mut_ptr(), memory.parents.len(),
            memory.crowns.as_mut_ptr(), memory.crowns.len(),
            memory.amounts.as_mut_ptr(), memory.amounts.len(),
            memory.log.as_mut_ptr(), memory.log.len(),
            journal.as_ptr(), journal.len(),
            result.as_mut_ptr(), result.len(),
        )
    })
}

#[rustfmt::skip] // a slice a line
pub fn flush(journal: &mut [u8], known: &mut Known) -> Outcome {
    // SAFETY: as for `record`.
    outcome(|result| unsafe {
        meter_flush(
            journal.as_mut_ptr(), journal.len(),
            known.as_mut_ptr(), known.len(),
            result.as_mut_ptr(), result.len(),
        )
    })
}

#[rustfmt::skip] // a slice a line
pub fn append(journal: &mut [u8], used: usize, entries: &[u8]) -> Outcome {
    // SAFETY: as for `record`.
    outcome(|result| unsafe {
        meter_append(
            journal.as_mut_ptr(), journal.len(),
            used,
            entries.as_ptr(), entries.len(),
            result.as_mut_ptr(), result.len(),
        )
    })
}

/// Where the bytes are no journal, what is known is left.
#[rustfmt::skip] // a slice a line
pub fn judge(journal: &[u8], known: &mut Known) -> Outcome {
    // SAFETY: as for `record`.
    outcome(|result| unsafe {
        meter_known(
            journal.as_ptr(), journal.len(),
            known.as_mut_ptr(), known.len(),
            result.as_mut_ptr(), result.len(),
        )
    })
}

/// The result of a function that is lent what it asks for, by the types above.
fn outcome(function: impl FnOnce(&mut Outcome) -> u32) -> Outcome {
    let mut result = [0; 2];
    NotCarriedOut::check(function(&mut result))
        .expect("a state, what is known and a result have their lengths by their types");
    result
}
