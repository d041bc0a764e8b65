//! Times the journal of document 02, Q-1: recording and replaying against the same calls as one list, and judging a
//! journal against a plain pass over its bytes. `bench/journal` builds and runs it, and docs/BENCHMARKS.md says what is
//! measured. Writes a line of tab-separated figures for each number of entries.

#[allow(dead_code)]
#[path = "../../bindings/rust/src/ffi.rs"]
mod ffi;
#[allow(dead_code)]
#[path = "../../bindings/rust/src/journal_ffi.rs"]
mod journal_ffi;
#[allow(dead_code)]
mod random;
#[allow(dead_code)]
#[path = "../../bindings/rust/src/refusal.rs"]
mod refusal;

use std::hint::black_box;
use std::time::Instant;

use ffi::{Memory, ANSWER, CALL};
use journal_ffi::{append, flush, record, replay};
use random::Random;

/// Runs of each, by turns; a time is their median.
const RUNS: usize = 15;
const KEYS: u32 = 65_536;
const LOG: usize = 65_536;
const SIZES: [usize; 4] = [1_000, 10_000, 100_000, 500_000];

const NEW: u64 = 0;
const JOIN: u64 = 4;
const POST: u64 = 5;
const SNAPSHOT: u64 = 9;
const ROLLBACK: u64 = 10;
const COMMIT: u64 = 11;

/// An entry for which the journal has no room: it is judged whole, and then 16.
const POSTED: [u8; 24] = [2, 0, 0, 0, 0, 0, 0, 0, 0, 0, 0, 0, 0, 0, 0, 0, 1, 0, 0, 0, 0, 0, 0, 0];

/// A day: keys created, joined and posted to; now and then a trial of some calls, which is taken back or kept. All
/// calls are answered DONE.
fn day(entries: usize) -> Vec<u64> {
    let mut random = Random::seeded(entries as u64 + 1);
    let mut table = Memory::fresh(KEYS as usize, LOG);
    let (mut calls, mut answer, mut keys, mut open) = (Vec::with_capacity(CALL * entries), [0; ANSWER], 0_u32, 0_u64);
    while calls.len() < CALL * entries {
        let key = u64::from(random.below(keys.max(1)));
        let call = match random.below(100) {
            _ if keys < 2 => [NEW, 0, 1, 0],
            0 if open == 0 => [SNAPSHOT, 0, 0, 0],
            1..=10 if open != 0 => [if random.below(2) == 0 { ROLLBACK } else { COMMIT }, open, 0, 0],
            11..=25 if keys < KEYS => [NEW, 0, 7, 0],
            26..=40 => [JOIN, key, u64::from(random.below(keys)), 0],
            _ => [POST, key, 0, 5],
        };
        table.call(&call, &mut answer);
        assert_eq!(answer[0], 0, "no call is refused: {call:?}");
        open = match call[0] {
            SNAPSHOT => answer[2],
            ROLLBACK | COMMIT => 0,
            _ => open,
        };
        keys = table.numbers[0];
        calls.extend(call);
    }
    calls
}

fn timed(runs: &mut Vec<f64>, entries: usize, work: impl FnOnce()) {
    let begin = Instant::now();
    work();
    runs.push(begin.elapsed().as_nanos() as f64 / entries as f64);
}

fn median(mut runs: Vec<f64>) -> f64 {
    runs.sort_by(f64::total_cmp);
    runs[runs.len() / 2]
}

fn main() {
    for entries in SIZES {
        let calls = day(entries);
        let mut answers = vec![0; ANSWER * entries];
        let room = 24 * entries + 12 * (entries / 2048 + 1);
        let mut journal = vec![0_u8; room];
        let mut known = [0; 4];
        let mut first = Memory::fresh(KEYS as usize, LOG);
        assert_eq!(record(&mut first, &calls, &mut answers, &mut journal, &mut known), 0);
        assert_eq!(flush(&mut journal, &mut known), [0, known[0]]);
        journal.truncate(known[0] as usize);
        let entries_end = journal.len();

        let mut taken: [Vec<f64>; 5] = Default::default();
        let mut written = vec![0_u8; room];
        for _ in 0..RUNS {
            let mut table = Memory::fresh(KEYS as usize, LOG);
            timed(&mut taken[0], entries, || {
                table.calls(&calls, &mut answers);
            });
            let mut table = Memory::fresh(KEYS as usize, LOG);
            timed(&mut taken[1], entries, || {
                record(&mut table, &calls, &mut answers, &mut written, &mut [0; 4]);
            });
            let mut table = Memory::fresh(KEYS as usize, LOG);
            timed(&mut taken[2], entries, || {
                assert_eq!(replay(&mut table, &journal), [0, entries as u64]);
            });
            timed(&mut taken[3], entries, || {
                assert_eq!(append(&mut journal, entries_end, &POSTED), [16, entries_end as u64]);
            });
            timed(&mut taken[4], entries, || {
                black_box(journal.iter().fold(0_u64, |sum, byte| sum + u64::from(*byte)));
            });
        }
        let [list, record, replay, judge, pass] = taken.map(median);
        println!("journal\t{entries}\t{list:.2}\t{record:.2}\t{replay:.2}\t{judge:.2}\t{pass:.2}");
        eprintln!(
            "{entries:>7} entries: list {list:.1}, record {record:.1} = {:.2}, replay {replay:.1} = {:.2} ns; judged {:.1} GB/s, a pass {:.1} GB/s = {:.2}",
            record / list,
            replay / list,
            24.0 / judge,
            24.0 / pass,
            pass / judge,
        );
    }
}
