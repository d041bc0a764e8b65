//! The archive's two functions for calls, over memory that Rust owns. Unsafe code is here and in `journal_ffi` alone.
#![allow(unsafe_code)]

pub const NUMBERS: usize = 67;
pub const SERIALS: usize = 33;
pub const CALL: usize = 4;
pub const ANSWER: usize = 9;

/// How many numbers of `crowns` a row has (rank, owner), and how many of `log` an entry has (kind, key, and the old row's
/// parent, rank, owner and amount, as a low and a high word).
pub const CROWN: usize = 2;
pub const ENTRY: usize = 7;

/// What a table is lent: the state, the rows and the log. All zero is a fresh table.
#[derive(Clone, Debug)]
pub struct Memory {
    pub numbers: [u32; NUMBERS],
    pub serials: [u64; SERIALS],
    pub parents: Vec<u32>,
    pub crowns: Vec<u32>,
    pub amounts: Vec<u64>,
    pub log: Vec<u32>,
}

macro_rules! exported {
    ($parameters:tt) => {
        /// What the archive exports: eight slices, each as a pointer and a length in elements, to a number.
        pub type Exported = unsafe extern "C" fn $parameters -> u32;

        extern "C" {
            fn meter_call $parameters -> u32;
            fn meter_calls $parameters -> u32;
        }
    };
}

exported!((
    numbers: *mut u32, numbers_len: usize,
    serials: *mut u64, serials_len: usize,
    parents: *mut u32, parents_len: usize,
    crowns: *mut u32, crowns_len: usize,
    amounts: *mut u64, amounts_len: usize,
    log: *mut u32, log_len: usize,
    calls: *const u64, calls_len: usize,
    answers: *mut u64, answers_len: usize,
));

impl Memory {
    pub fn fresh(rows: usize, entries: usize) -> Memory {
        Memory {
            numbers: [0; NUMBERS],
            serials: [0; SERIALS],
            parents: vec![0; rows],
            crowns: vec![0; CROWN * rows],
            amounts: vec![0; rows],
            log: vec![0; ENTRY * entries],
        }
    }

    /// One call. What is returned is 0 where it was carried out.
    #[inline]
    pub fn call(&mut self, call: &[u64], answer: &mut [u64]) -> u32 {
        // SAFETY: the archive's function is proved to stay within the slices, whatever they hold.
        unsafe { self.lend(meter_call, call, answer) }
    }

    /// A list of calls. What is returned is 0 where it was carried out.
    #[inline]
    pub fn calls(&mut self, calls: &[u64], answers: &mut [u64]) -> u32 {
        // SAFETY: as for `call`.
        unsafe { self.lend(meter_calls, calls, answers) }
    }

    /// Lends everything to a function. Each pointer is that of a slice with that slice's own length, so it is aligned,
    /// not null and valid for so many elements. What can be written is borrowed by `&mut`, hence apart from the rest
    /// and used by nobody else meanwhile.
    ///
    /// # Safety
    ///
    /// The function must stay within the slices, write only to those that are `*mut`, and keep no pointer.
    #[inline(always)]
    #[rustfmt::skip] // a slice a line
    pub unsafe fn lend(&mut self, function: Exported, calls: &[u64], answers: &mut [u64]) -> u32 {
        function(
            self.numbers.as_mut_ptr(), self.numbers.len(),
            self.serials.as_mut_ptr(), self.serials.len(),
            self.parents.as_mut_ptr(), self.parents.len(),
            self.crowns.as_mut_ptr(), self.crowns.len(),
            self.amounts.as_mut_ptr(), self.amounts.len(),
            self.log.as_mut_ptr(), self.log.len(),
            calls.as_ptr(), calls.len(),
            answers.as_mut_ptr(), answers.len(),
        )
    }
}
