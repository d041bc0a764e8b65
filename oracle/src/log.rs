//! The table's undo log: the crate's own `VecLog`, which the oracle holds as well.

use std::cell::RefCell;

use ena::snapshot_vec::UndoLog;
use ena::undo_log::{Rollback, Snapshot, Snapshots, UndoLogs, VecLog};
use ena::unify::Delegate;

use crate::key::Key;
use crate::shared::Shared;

pub type Entry = UndoLog<Delegate<Key>>;

thread_local! {
    static NEWEST: RefCell<Option<Log>> = const { RefCell::new(None) };
}

/// Every method does what `VecLog` does, by calling it. All that is added is that `VecLog`'s snapshots stay
/// here, under a serial, so that the oracle can ask about them while the table holds the serial.
pub struct Log(Shared<Inside>);

struct Inside {
    entries: VecLog<Entry>,
    /// `VecLog` tells no length; what it shows since a snapshot of an empty log is all of it.
    from_the_start: Snapshot,
    /// The open snapshots in the order in which they were opened.
    open: Vec<Mark>,
    last_serial: u64,
}

pub struct Mark {
    pub serial: u64,
    pub log_len: usize,
    snapshot: Snapshot,
}

impl Log {
    /// The log of the table made last; see `Rows::of_newest_table`.
    pub fn of_newest_table() -> Log {
        NEWEST.take().expect("a table was just made")
    }

    pub fn all(&self) -> &[Entry] {
        self.0.get().all()
    }

    pub fn marks(&self) -> &[Mark] {
        &self.0.get().open
    }

    pub fn last_serial(&self) -> u64 {
        self.0.get().last_serial
    }

    /// Where among the marks the one with this serial stands, if it is open.
    pub fn position(&self, serial: u64) -> Option<usize> {
        self.0.get().position(serial)
    }
}

impl Inside {
    fn all(&self) -> &[Entry] {
        self.entries.actions_since_snapshot(&self.from_the_start)
    }

    /// From the innermost outwards, which is where the token of most calls is.
    fn position(&self, serial: u64) -> Option<usize> {
        self.open.iter().rposition(|mark| mark.serial == serial)
    }

    fn expect_position(&self, serial: u64) -> usize {
        self.position(serial)
            .expect("the table holds only serials that are open here")
    }

    fn snapshot(&self, serial: u64) -> &Snapshot {
        &self.open[self.expect_position(serial)].snapshot
    }

    /// Gives up the snapshot with this serial alone: those opened after it stay open, as they do in the crate.
    fn take(&mut self, serial: u64) -> Snapshot {
        let at = self.expect_position(serial);
        self.open.remove(at).snapshot
    }
}

impl Default for Log {
    fn default() -> Log {
        let inside = Inside {
            entries: VecLog::default(),
            from_the_start: VecLog::<()>::default().start_snapshot(),
            open: Vec::new(),
            last_serial: 0,
        };
        let log = Log(Shared::new(inside));
        NEWEST.set(Some(Log(log.0.twin())));
        log
    }
}

impl UndoLogs<Entry> for Log {
    fn in_snapshot(&self) -> bool {
        self.0.get().entries.in_snapshot()
    }

    fn num_open_snapshots(&self) -> usize {
        self.0.get().entries.num_open_snapshots()
    }

    fn push(&mut self, entry: Entry) {
        self.0.get_mut().entries.push(entry)
    }

    fn clear(&mut self) {
        self.0.get_mut().entries.clear()
    }
}

impl Snapshots<Entry> for Log {
    type Snapshot = u64;

    fn has_changes(&self, serial: &u64) -> bool {
        let inside = self.0.get();
        inside.entries.has_changes(inside.snapshot(*serial))
    }

    fn actions_since_snapshot(&self, serial: &u64) -> &[Entry] {
        let inside = self.0.get();
        inside
            .entries
            .actions_since_snapshot(inside.snapshot(*serial))
    }

    fn start_snapshot(&mut self) -> u64 {
        let inside = self.0.get_mut();
        let log_len = inside.all().len();
        let snapshot = inside.entries.start_snapshot();
        inside.last_serial += 1;
        let serial = inside.last_serial;
        inside.open.push(Mark {
            serial,
            log_len,
            snapshot,
        });
        serial
    }

    fn rollback_to<R: Rollback<Entry>>(&mut self, rows: impl FnOnce() -> R, serial: u64) {
        let inside = self.0.get_mut();
        let snapshot = inside.take(serial);
        inside.entries.rollback_to(rows, snapshot)
    }

    fn commit(&mut self, serial: u64) {
        let inside = self.0.get_mut();
        let snapshot = inside.take(serial);
        inside.entries.commit(snapshot)
    }
}
