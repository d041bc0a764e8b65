//! The entries of the log since a snapshot.

use crate::call::{Key, Value};
use crate::ffi::ENTRY;

/// A row as it stands in memory. Rank and value mean something for a root alone.
#[derive(Clone, Copy, Debug, PartialEq, Eq)]
pub struct Row {
    /// The key itself for a root.
    pub parent: Key,
    /// At least the longest path's redirects.
    pub rank: u32,
    /// The group's owner and amount.
    pub value: Value,
}

/// One entry of the log, named as ena's.
#[derive(Clone, Copy, Debug, PartialEq, Eq)]
pub enum UndoLog {
    /// The key was made.
    NewElem(Key),
    /// The key's row was changed *from* this one.
    SetElem(Key, Row),
}

/// The entries since a snapshot, oldest first: a view of the meter's log.
#[derive(Clone, Debug)]
pub struct Actions<'a> {
    log: &'a [u32],
    from: usize,
    to: usize,
}

impl<'a> Actions<'a> {
    pub(crate) fn new(log: &'a [u32], from: usize, to: usize) -> Actions<'a> {
        Actions { log, from, to }
    }
}

impl Iterator for Actions<'_> {
    type Item = UndoLog;

    fn next(&mut self) -> Option<UndoLog> {
        let at = self.from;
        if at == self.to {
            return None;
        }
        self.from += 1;
        let entry = &self.log[ENTRY * at..ENTRY * (at + 1)];
        let (kind, key) = (entry[0], Key::from_index(entry[1]));
        // A meter's log holds kinds 1 and 2 alone: nobody else writes to it.
        Some(match kind {
            1 => UndoLog::NewElem(key),
            _ => UndoLog::SetElem(
                key,
                Row {
                    parent: Key::from_index(entry[2]),
                    rank: entry[3],
                    value: Value::new(entry[4], u64::from(entry[5]) | u64::from(entry[6]) << 32),
                },
            ),
        })
    }

    fn size_hint(&self) -> (usize, Option<usize>) {
        let left = self.to - self.from;
        (left, Some(left))
    }
}

impl ExactSizeIterator for Actions<'_> {}
