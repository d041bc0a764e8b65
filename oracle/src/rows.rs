//! The table's vector of rows: a plain `Vec`, which the oracle holds as well.

use std::cell::RefCell;

use ena::snapshot_vec::{UndoLog, VecLike};
use ena::undo_log::Rollback;
use ena::unify::{Delegate, VarValue};

use crate::key::Key;
use crate::shared::Shared;

pub type Row = VarValue<Key>;

thread_local! {
    static NEWEST: RefCell<Option<Rows>> = const { RefCell::new(None) };
}

pub struct Rows(Shared<Vec<Row>>);

impl Rows {
    /// The rows of the table made last. The crate makes a table's vector itself, by `Default`, and gives it
    /// to nobody, so `default` leaves a twin here.
    pub fn of_newest_table() -> Rows {
        NEWEST.take().expect("a table was just made")
    }

    pub fn all(&self) -> &[Row] {
        self.0.get()
    }
}

impl Default for Rows {
    fn default() -> Rows {
        let rows = Rows(Shared::new(Vec::new()));
        NEWEST.set(Some(Rows(rows.0.twin())));
        rows
    }
}

impl AsRef<[Row]> for Rows {
    fn as_ref(&self) -> &[Row] {
        self.0.get()
    }
}

impl AsMut<[Row]> for Rows {
    fn as_mut(&mut self) -> &mut [Row] {
        self.0.get_mut()
    }
}

impl Rollback<UndoLog<Delegate<Key>>> for Rows {
    fn reverse(&mut self, undo: UndoLog<Delegate<Key>>) {
        self.0.get_mut().reverse(undo)
    }
}

impl VecLike<Delegate<Key>> for Rows {
    fn push(&mut self, row: Row) {
        self.0.get_mut().push(row)
    }

    fn len(&self) -> usize {
        self.0.get().len()
    }

    fn reserve(&mut self, more: usize) {
        self.0.get_mut().reserve(more)
    }
}
