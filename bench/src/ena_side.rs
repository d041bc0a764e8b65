//! The crate ena, with the oracle's values and without its observers.

use std::hint::black_box;

use ena::snapshot_vec::UndoLog;
use ena::unify::{Delegate, InPlace, InPlaceUnificationTable, Snapshot, UnifyKey, VarValue};

use crate::value::{Refusal, Value};
use crate::work::{self, Calls, End, Numbers};

#[derive(Clone, Copy, Debug, PartialEq)]
pub struct Key(u32);

impl UnifyKey for Key {
    type Value = Value;

    fn index(&self) -> u32 {
        self.0
    }

    fn from_index(index: u32) -> Key {
        Key(index)
    }

    fn tag() -> &'static str {
        "meter"
    }
}

pub struct Table {
    table: InPlaceUnificationTable<Key>,
    /// The snapshots taken since this table was copied.
    open: Vec<Snapshot<InPlace<Key>>>,
    last_serial: u64,
}

/// Bytes of a row and of a log entry.
pub const ROW: usize = size_of::<VarValue<Key>>();
pub const ENTRY: usize = size_of::<UndoLog<Delegate<Key>>>();

impl Table {
    pub fn made_by(calls: &[Numbers]) -> Table {
        let mut made = Table {
            table: InPlaceUnificationTable::new(),
            open: Vec::new(),
            last_serial: 0,
        };
        for call in calls {
            made.carry_out(call);
        }
        made
    }

    /// A copy with room for so many keys and log entries, so that no run has to allocate: the log is filled and
    /// rolled back.
    pub fn copy(&self, keys: usize, entries: usize) -> Table {
        let mut copy = Table {
            table: self.table.clone(),
            open: Vec::with_capacity(32),
            last_serial: self.last_serial,
        };
        copy.table.reserve(keys + 1 - copy.table.len());
        let snapshot = copy.table.snapshot();
        let spare = copy.table.new_key(Value::new(0, 0));
        for _ in 0..entries {
            let _ = copy.table.unify_var_value(spare, Value::new(0, 0));
        }
        copy.table.rollback_to(snapshot);
        copy
    }

    /// The list as lent numbers, each call answered in nine numbers. Steps are 0: ena doesn't count them.
    pub fn list(&mut self, calls: &[u64], answers: &mut [u64]) {
        for (call, answer) in calls.chunks_exact(4).zip(answers.chunks_exact_mut(9)) {
            answer.copy_from_slice(&self.carry_out(call));
        }
    }

    fn carry_out(&mut self, call: &[u64]) -> [u64; 9] {
        let key = |at: usize| Key(call[at] as u32);
        match call[0] {
            work::NEW => {
                let made = self.table.new_key(Value::new(call[1] as u32, call[2]));
                [0, u64::from(made.0), 0, 0, 0, 0, 0, 0, 0]
            }
            work::FIND => [0, u64::from(self.table.find(key(1)).0), 0, 0, 0, 0, 0, 0, 0],
            work::JOIN => merged(self.table.unify_var_var(key(1), key(2))),
            work::POST => merged(self.table.unify_var_value(key(1), Value::new(call[2] as u32, call[3]))),
            work::PROBE_KEY => {
                let (root, value) = self.table.inlined_probe_key_value(key(1));
                let owner = u64::from(value.owner_number());
                [0, u64::from(root.0), 0, owner, value.amount, 0, 0, 0, 0]
            }
            work::SNAPSHOT => {
                self.open.push(self.table.snapshot());
                self.last_serial += 1;
                [0, 0, self.last_serial, 0, 0, 0, 0, 0, 0]
            }
            work::ROLLBACK => {
                let innermost = self.open.pop().expect("an open snapshot");
                self.table.rollback_to(innermost);
                [0; 9]
            }
            work::COMMIT => {
                let innermost = self.open.pop().expect("an open snapshot");
                self.table.commit(innermost);
                [0; 9]
            }
            code => panic!("no work makes call {code}"),
        }
    }

    /// The plain method for each call, its result kept.
    pub fn singly(&mut self, calls: &Calls) {
        let table = &mut self.table;
        match calls {
            Calls::News(values) => values.iter().for_each(|&(owner, amount)| {
                black_box(table.new_key(Value::new(owner, amount)));
            }),
            Calls::Finds(keys) => keys.iter().for_each(|&key| {
                black_box(table.find(Key(key)));
            }),
            Calls::Joins(pairs) => pairs.iter().for_each(|&(a, b)| {
                let _ = black_box(table.unify_var_var(Key(a), Key(b)));
            }),
            Calls::Posts(posts) => posts.iter().for_each(|&(key, owner, amount)| {
                let _ = black_box(table.unify_var_value(Key(key), Value::new(owner, amount)));
            }),
            Calls::Trials { joins, in_each, end } => joins.chunks(*in_each).for_each(|joins| {
                let snapshot = black_box(table.snapshot());
                for &(a, b) in joins {
                    let _ = black_box(table.unify_var_var(Key(a), Key(b)));
                }
                match end {
                    End::Rollback => table.rollback_to(snapshot),
                    End::Commit => table.commit(snapshot),
                }
            }),
        }
    }
}

fn merged(outcome: Result<(), Refusal>) -> [u64; 9] {
    let no = outcome.map_or_else(|refusal| refusal as u64, |()| 0);
    [no, 0, 0, 0, 0, 0, 0, 0, 0]
}
