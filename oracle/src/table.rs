//! One table of the crate, and its answers to calls.

use std::fmt::{self, Write};

use ena::undo_log::{Snapshots, UndoLogs};
use ena::unify::{InPlace, Snapshot, UnificationTable, UnifyKey};

use crate::answer::{Answer, Reply};
use crate::command::Call;
use crate::fields::{EntryFields, RowFields};
use crate::guard::unless_it_panics;
use crate::key::{counting_steps, Key};
use crate::log::Log;
use crate::rows::Rows;
use crate::value::{Refusal, Value};

type Store = InPlace<Key, Rows, Log>;

pub struct Table {
    table: UnificationTable<Store>,
    rows: Rows,
    log: Log,
    /// The crate's own snapshots, as many as `log` has marks and in the same order.
    open: Vec<Snapshot<Store>>,
}

impl Table {
    pub fn fresh() -> Table {
        let table = UnificationTable::new();
        Table {
            table,
            rows: Rows::of_newest_table(),
            log: Log::of_newest_table(),
            open: Vec::new(),
        }
    }

    pub fn call(&mut self, call: &Call) -> Reply<'_> {
        match *call {
            Call::Rollback(token) => self.end(token, UnificationTable::rollback_to),
            Call::Commit(token) => self.end(token, UnificationTable::commit),
            Call::Keys(token) => self.keys(token),
            Call::Actions(token) => self.actions(token),
            Call::Changes(token) => self.changes(token),
            _ => numbers_unless_it_panics(|| self.call_without_token(call)),
        }
    }

    fn call_without_token(&mut self, call: &Call) -> Answer {
        let table = &mut self.table;
        match *call {
            Call::New { owner, amount } => Answer {
                key: table.new_key(Value::new(owner, amount)).0,
                ..Answer::default()
            },
            Call::Len => Answer {
                to: table.len(),
                ..Answer::default()
            },
            Call::TryProbe(key) => match table.try_probe_value(Key(key)) {
                Some(value) => Answer {
                    yes: true,
                    ..value_of(value)
                },
                None => Answer::default(),
            },
            Call::Snapshot => {
                self.open.push(table.snapshot());
                Answer {
                    token: self.log.last_serial(),
                    ..Answer::default()
                }
            }
            _ => {
                let (answer, steps) = counting_steps(|| walk(table, call));
                Answer { steps, ..answer }
            }
        }
    }

    /// Hands the token's snapshot to the crate, also where it is not the innermost. The crate takes no other
    /// snapshot with it, so the rest stay open.
    fn end(
        &mut self,
        token: u64,
        end: fn(&mut UnificationTable<Store>, Snapshot<Store>),
    ) -> Reply<'_> {
        let Some(at) = self.log.position(token) else {
            return Reply::TokenNotOpen;
        };
        let snapshot = self.open.remove(at);
        numbers_unless_it_panics(|| {
            end(&mut self.table, snapshot);
            Answer::default()
        })
    }

    fn keys(&self, token: u64) -> Reply<'_> {
        let Some(at) = self.log.position(token) else {
            return Reply::TokenNotOpen;
        };
        numbers_unless_it_panics(|| {
            let keys = self.table.vars_since_snapshot(&self.open[at]);
            Answer {
                from: keys.start.0 as usize,
                to: keys.end.0 as usize,
                ..Answer::default()
            }
        })
    }

    fn actions(&self, token: u64) -> Reply<'_> {
        let Some(at) = self.log.position(token) else {
            return Reply::TokenNotOpen;
        };
        match unless_it_panics(|| self.log.actions_since_snapshot(&token)) {
            Some(entries) => {
                let (from, to) = (self.log.marks()[at].log_len, self.log.all().len());
                Reply::View(
                    Answer {
                        from,
                        to,
                        ..Answer::default()
                    },
                    entries,
                )
            }
            None => Reply::CratePanicked,
        }
    }

    fn changes(&self, token: u64) -> Reply<'_> {
        if self.log.position(token).is_none() {
            return Reply::TokenNotOpen;
        }
        numbers_unless_it_panics(|| Answer {
            yes: self.log.has_changes(&token),
            ..Answer::default()
        })
    }

    /// The row's four numbers, where the crate has such a row.
    pub fn row(&self, key: u32) -> Option<RowFields> {
        self.rows.all().get(key as usize).map(RowFields::of)
    }

    pub fn live(&self) -> Result<String, fmt::Error> {
        let mut line = String::from("live rows");
        for row in self.rows.all() {
            write!(line, " | {}", RowFields::of(row))?;
        }
        line.push_str(" log");
        for entry in self.log.all() {
            write!(line, " | {}", EntryFields(entry))?;
        }
        let (count, used) = (self.table.len(), self.log.all().len());
        write!(
            line,
            " state {count} {used} {} {} marks",
            self.log.num_open_snapshots(),
            self.log.last_serial()
        )?;
        for (mark, snapshot) in self.log.marks().iter().zip(&self.open) {
            let keys = self.table.vars_since_snapshot(snapshot).start.index();
            write!(line, " | {} {} {keys}", mark.serial, mark.log_len)?;
        }
        Ok(line)
    }
}

fn numbers_unless_it_panics<'a>(call: impl FnOnce() -> Answer) -> Reply<'a> {
    unless_it_panics(call).map_or(Reply::CratePanicked, Reply::Numbers)
}

/// The calls that walk; the steps are counted around them.
fn walk(table: &mut UnificationTable<Store>, call: &Call) -> Answer {
    match *call {
        Call::Find(key) => Answer {
            key: table.find(Key(key)).0,
            ..Answer::default()
        },
        Call::Unioned(a, b) => Answer {
            yes: table.unioned(Key(a), Key(b)),
            ..Answer::default()
        },
        Call::Join(a, b) => merged(table.unify_var_var(Key(a), Key(b))),
        Call::Post { key, owner, amount } => {
            merged(table.unify_var_value(Key(key), Value::new(owner, amount)))
        }
        Call::Probe(key) => value_of(&table.probe_value(Key(key))),
        Call::ProbeKey(key) => {
            let (root, value) = table.inlined_probe_key_value(Key(key));
            Answer {
                key: root.0,
                ..value_of(&value)
            }
        }
        _ => unreachable!("the other calls walk nowhere"),
    }
}

fn merged(outcome: Result<(), Refusal>) -> Answer {
    Answer {
        no: outcome.map_or_else(|refusal| refusal as u64, |()| 0),
        ..Answer::default()
    }
}

fn value_of(value: &Value) -> Answer {
    Answer {
        owner: value.owner_number(),
        amount: value.amount,
        ..Answer::default()
    }
}
