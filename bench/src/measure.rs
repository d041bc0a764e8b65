//! Runs of both sides, taking turns, and what they took.

use std::hint::black_box;
use std::time::Instant;

use crate::switches::switches;
use crate::work::{Numbers, Work, PROBE_KEY};
use crate::{ena_side, meter_side};

/// Runs of each side; its time is their median.
const RUNS: usize = 31;
/// A run repeats short lists, from a fresh start each time, until it has made so many calls.
const CALLS_IN_A_RUN: usize = 20_000;
/// How often a list is run for one undisturbed time.
const TRIES: usize = 10;
/// Calls of a list that are handed over in one go.
const BATCH: usize = 1_024;

/// Nanoseconds for each call: the median, and the quartiles around it.
#[derive(Clone, Copy)]
pub struct Time {
    pub median: f64,
    pub low: f64,
    pub high: f64,
}

pub struct Times {
    pub calls: usize,
    pub steps: f64,
    pub meter_list: Time,
    pub ena_list: Time,
    pub meter_single: Time,
    pub ena_single: Time,
}

/// What a single call takes that does nothing but answer.
pub fn interface() -> f64 {
    let mut table = meter_side::Table::made_by(&[], 0, 0);
    let calls = vec![0; 4 * CALLS_IN_A_RUN];
    let run = |_| {
        let begin = Instant::now();
        table.nothing(&calls);
        begin.elapsed().as_nanos() as f64 / CALLS_IN_A_RUN as f64
    };
    spread((0..RUNS).map(run).collect()).median
}

/// One work on both sides: the tables to start from, and the list.
struct Bench<'a> {
    work: &'a Work,
    keys: usize,
    /// Entries that the list needs in the log.
    entries: usize,
    list: Vec<u64>,
    meter: meter_side::Table,
    ena: ena_side::Table,
    running: meter_side::Table,
    answers: Vec<u64>,
    clock: f64,
}

pub fn measure(work: &Work, keys: usize) -> Times {
    let numbers = work.calls.numbers();
    let list: Vec<u64> = numbers.concat();
    let room = 8 * keys + 2_000;
    let meter = meter_side::Table::made_by(&work.before, keys, room);
    let (entries, steps) = look(&work.before, &numbers, keys, room);
    let mut bench = Bench {
        work,
        keys,
        entries,
        running: meter_side::Table::made_by(&work.before, keys, room),
        ena: ena_side::Table::made_by(&work.before),
        answers: vec![0; 9 * BATCH],
        clock: clock(),
        list,
        meter,
    };
    bench.compare();
    bench.times(steps)
}

/// The most entries that the list uses, and its walks' steps for each call.
fn look(before: &[Numbers], list: &[Numbers], keys: usize, room: usize) -> (usize, f64) {
    let mut table = meter_side::Table::made_by(before, keys, room);
    let (mut used, mut steps) = (0, 0);
    for call in list {
        let answer = table.call(call);
        assert_eq!(answer[0], 0, "no work is refused");
        steps += answer[5];
        used = used.max(table.used());
    }
    (used, steps as f64 / list.len() as f64)
}

/// What reading the clock twice takes, in nanoseconds.
fn clock() -> f64 {
    let mut taken: Vec<f64> = (0..1_001).map(|_| Instant::now().elapsed().as_nanos() as f64).collect();
    taken.sort_by(f64::total_cmp);
    taken[500]
}

fn spread(mut taken: Vec<f64>) -> Time {
    taken.sort_by(f64::total_cmp);
    let at = |part: f64| taken[((taken.len() - 1) as f64 * part).round() as usize];
    Time {
        median: at(0.5),
        low: at(0.25),
        high: at(0.75),
    }
}

impl Bench<'_> {
    fn reset_meter(&mut self) {
        self.running.reset(&self.meter, self.entries)
    }

    fn reset_ena(&mut self) -> ena_side::Table {
        self.ena.copy(self.keys, self.entries)
    }

    /// Both sides answer the same, steps aside, whether by lists or one by one, and leave the same groups.
    fn compare(&mut self) {
        self.reset_meter();
        let mut ena = self.reset_ena();
        let mut answers = vec![0; 9 * BATCH];
        for batch in self.list.chunks(4 * BATCH) {
            self.running.list(batch, &mut self.answers);
            ena.list(batch, &mut answers);
            self.answers.iter_mut().skip(5).step_by(9).for_each(|steps| *steps = 0);
            assert!(self.answers == answers, "{}: answers differ", self.work.name);
        }
        let after = groups(&mut self.running, &mut ena, &self.work.name);
        self.reset_meter();
        let mut ena = self.reset_ena();
        self.running.singly(&self.list);
        ena.singly(&self.work.calls);
        let singly = groups(&mut self.running, &mut ena, &self.work.name);
        assert!(after == singly, "{}: one by one differs from lists", self.work.name);
    }

    fn times(&mut self, steps: f64) -> Times {
        let mut taken: [Vec<f64>; 4] = Default::default();
        for _ in 0..RUNS {
            taken[0].push(self.run(Self::reset_meter, |bench, ()| bench.meter_list()));
            taken[1].push(self.run(Self::reset_ena, |bench, ena| bench.ena_list(ena)));
            taken[2].push(self.run(Self::reset_meter, |bench, ()| bench.running.singly(&bench.list)));
            taken[3].push(self.run(Self::reset_ena, |bench, ena| ena.singly(&bench.work.calls)));
        }
        let [meter_list, ena_list, meter_single, ena_single] = taken.map(spread);
        Times {
            calls: self.list.len() / 4,
            steps,
            meter_list,
            ena_list,
            meter_single,
            ena_single,
        }
    }

    /// Nanoseconds for each call of one run.
    fn run<T>(&mut self, reset: impl Fn(&mut Self) -> T, calls: impl Fn(&mut Self, &mut T)) -> f64 {
        let in_list = self.list.len() / 4;
        let repeats = CALLS_IN_A_RUN.div_ceil(in_list);
        let taken: f64 = (0..repeats).map(|_| self.once(&reset, &calls)).sum();
        taken / (repeats * in_list) as f64
    }

    /// Nanoseconds for the list from a fresh start. Where another program got the processor meanwhile it is run
    /// again; where that happens each time, the shortest counts.
    fn once<T>(&mut self, reset: &impl Fn(&mut Self) -> T, calls: &impl Fn(&mut Self, &mut T)) -> f64 {
        let mut shortest = f64::INFINITY;
        for _ in 0..TRIES {
            let mut fresh = reset(self);
            let before = switches();
            let begin = Instant::now();
            calls(self, &mut fresh);
            let taken = begin.elapsed().as_nanos() as f64 - self.clock;
            if switches() == before {
                return taken;
            }
            shortest = shortest.min(taken);
        }
        shortest
    }

    fn meter_list(&mut self) {
        for batch in self.list.chunks(4 * BATCH) {
            self.running.list(batch, &mut self.answers);
            black_box(&mut self.answers);
        }
    }

    fn ena_list(&mut self, ena: &mut ena_side::Table) {
        for batch in self.list.chunks(4 * BATCH) {
            ena.list(batch, &mut self.answers);
            black_box(&mut self.answers);
        }
    }
}

/// Each key's root, owner and amount on both sides, which must be the same.
fn groups(meter: &mut meter_side::Table, ena: &mut ena_side::Table, name: &str) -> Vec<[u64; 3]> {
    let mut all = Vec::new();
    for key in 0..meter.count() {
        let call = [PROBE_KEY, u64::from(key), 0, 0];
        let (mut ours, mut theirs) = (meter.call(&call), [0; 9]);
        ena.list(&call, &mut theirs);
        ours[5] = 0;
        assert!(ours == theirs, "{name}: groups differ at key {key}");
        all.push([ours[1], ours[3], ours[4]]);
    }
    all
}
