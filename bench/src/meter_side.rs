//! The meter, through the library's C interface.

use std::hint::black_box;

use crate::ffi::{Memory, ANSWER, CALL, ENTRY};
use crate::interface::NOTHING;
use crate::work::Numbers;

const COUNT: usize = 0;
const USED: usize = 1;

pub struct Table(Memory);

/// Bytes of a row and of a log entry: of the elements that are lent for one more.
pub fn row() -> usize {
    lent(&Memory::fresh(1, 0)) - lent(&Memory::fresh(0, 0))
}

pub fn entry() -> usize {
    lent(&Memory::fresh(0, 1)) - lent(&Memory::fresh(0, 0))
}

pub fn state() -> usize {
    lent(&Memory::fresh(0, 0))
}

fn lent(memory: &Memory) -> usize {
    let short = [&memory.parents, &memory.crowns, &memory.log].map(|part| size_of_val(&part[..]));
    let long = size_of_val(&memory.amounts[..]);
    short.iter().sum::<usize>() + long + size_of_val(&memory.numbers) + size_of_val(&memory.serials)
}

impl Table {
    pub fn made_by(calls: &[Numbers], keys: usize, log: usize) -> Table {
        let mut made = Table(Memory::fresh(keys, log));
        for call in calls {
            made.call(call);
        }
        made
    }

    /// Back to another table of the same size. The log's first entries are written, so that they are as near as ena's.
    pub fn reset(&mut self, to: &Table, entries: usize) {
        let (memory, to) = (&mut self.0, &to.0);
        memory.numbers = to.numbers;
        memory.serials = to.serials;
        memory.parents.copy_from_slice(&to.parents);
        memory.crowns.copy_from_slice(&to.crowns);
        memory.amounts.copy_from_slice(&to.amounts);
        memory.log[..ENTRY * entries].fill(0);
    }

    pub fn used(&self) -> usize {
        self.0.numbers[USED] as usize
    }

    pub fn count(&self) -> u32 {
        self.0.numbers[COUNT]
    }

    pub fn call(&mut self, call: &[u64]) -> [u64; ANSWER] {
        let mut answer = [0; ANSWER];
        assert_eq!(self.0.call(call, &mut answer), 0, "carried out");
        answer
    }

    pub fn list(&mut self, calls: &[u64], answers: &mut [u64]) {
        assert_eq!(self.0.calls(calls, answers), 0, "carried out");
    }

    /// As `singly`, by a function that does nothing but answer.
    pub fn nothing(&mut self, calls: &[u64]) {
        let mut answer = [0; ANSWER];
        let nothing = black_box(NOTHING); // else the compiler leaves out the parameters that it doesn't use
        for call in calls.chunks_exact(CALL) {
            // SAFETY: the call has a first number and the answer room for nine, and nothing else is touched.
            black_box(unsafe { self.0.lend(nothing, call, &mut answer) });
            black_box(&mut answer);
        }
    }

    /// The exported function for each call, its answer kept.
    pub fn singly(&mut self, calls: &[u64]) {
        let mut answer = [0; ANSWER];
        for call in calls.chunks_exact(CALL) {
            black_box(self.0.call(call, &mut answer));
            black_box(&mut answer);
        }
    }
}
