//! The numbers in a row and in a log entry. A row's fields are private in the crate, but its Debug text
//! shows them all.

use std::fmt;

use ena::snapshot_vec::UndoLog;

use crate::log::Entry;
use crate::rows::Row;

pub struct RowFields {
    parent: u32,
    rank: u32,
    owner: u32,
    amount: u64,
}

impl RowFields {
    pub fn of(row: &Row) -> RowFields {
        let text = format!("{row:?}");
        Self::read(&text).unwrap_or_else(|| {
            panic!("the crate shows a row as {text}, which this oracle cannot read")
        })
    }

    fn read(text: &str) -> Option<RowFields> {
        let fields = text
            .strip_prefix("VarValue { parent: ")?
            .strip_suffix(" }")?;
        let (parent, fields) = fields.split_once(", value: ")?;
        let (value, rank) = fields.split_once(", rank: ")?;
        let (owner, amount) = value.split_once(' ')?;
        Some(RowFields {
            parent: parent.parse().ok()?,
            rank: rank.parse().ok()?,
            owner: owner.parse().ok()?,
            amount: amount.parse().ok()?,
        })
    }
}

impl fmt::Display for RowFields {
    fn fmt(&self, text: &mut fmt::Formatter<'_>) -> fmt::Result {
        write!(
            text,
            "{} {} {} {}",
            self.parent, self.rank, self.owner, self.amount
        )
    }
}

/// An entry as its six numbers: KIND KEY PARENT RANK OWNER AMOUNT.
pub struct EntryFields<'a>(pub &'a Entry);

impl fmt::Display for EntryFields<'_> {
    fn fmt(&self, text: &mut fmt::Formatter<'_>) -> fmt::Result {
        match self.0 {
            UndoLog::NewElem(key) => write!(text, "1 {key} 0 0 0 0"),
            UndoLog::SetElem(key, row) => write!(text, "2 {key} {}", RowFields::of(row)),
            UndoLog::Other(()) => unreachable!("a unification table records no actions of its own"),
        }
    }
}
