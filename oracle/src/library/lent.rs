//! The lent memory: how much there is of it, where its numbers lie (docs/LIBRARY.md), and damage to it.

use crate::command::{Damage, Row};
use crate::ffi::{Memory, CROWN, ENTRY};

/// As much as the program `meter` has (docs/METER.md): a list is then an error for both or for neither.
const MOST_ROWS: usize = 65_600;
const MOST_ENTRIES: usize = 131_072;

/// Places of the state's numbers and serials.
pub const COUNT: usize = 0;
pub const USED: usize = 1;
pub const OPEN: usize = 2;
pub const LAST: usize = 0;
pub const MARKS: usize = 32;

/// Where a mark's log length lies in `numbers`, its keys one further on.
pub fn mark_numbers(mark: usize) -> usize {
    3 + 2 * mark
}

/// Where a mark's serial lies in `serials`.
pub fn mark_serial(mark: usize) -> usize {
    1 + mark
}

/// Nothing where that is more than there may be.
pub fn fresh(rows: u32, entries: u32) -> Option<Memory> {
    let (rows, entries) = (rows as usize, entries as usize);
    (rows <= MOST_ROWS && entries <= MOST_ENTRIES).then(|| Memory::fresh(rows, entries))
}

/// Writes what has a place.
fn put<N>(part: &mut [N], at: usize, number: N) {
    if let Some(place) = part.get_mut(at) {
        *place = number;
    }
}

/// What is new is 0. No room is left behind the end, so that tools which watch the heap see a write past it.
fn lend<N: Clone + Default>(part: &mut Vec<N>, len: usize) {
    part.resize(len, N::default());
    part.shrink_to_fit();
}

impl Memory {
    /// Rows that have a place for any number.
    pub fn rows(&self) -> usize {
        let crowns = self.crowns.len().div_ceil(CROWN);
        self.parents.len().max(crowns).max(self.amounts.len())
    }

    /// Entries that have a place for any number.
    pub fn entries(&self) -> usize {
        self.log.len().div_ceil(ENTRY)
    }

    /// Nothing, and nothing is changed, where there is no place for it or more is to be lent than there may be.
    pub fn damage(&mut self, damage: &Damage) -> Option<()> {
        match *damage {
            Damage::SetRow { key, ref row } => self.set_row(key as usize, row),
            Damage::SetEntry {
                entry,
                kind,
                key,
                ref row,
            } => self.set_entry(entry as usize, kind, key, row),
            Damage::SetState {
                count,
                used,
                open,
                last,
            } => {
                (self.numbers[COUNT], self.numbers[USED]) = (count, used);
                (self.numbers[OPEN], self.serials[LAST]) = (open, last);
                Some(())
            }
            Damage::SetMark {
                mark,
                serial,
                log_len,
                keys,
            } => {
                let at = mark_numbers(mark as usize);
                (self.numbers[at], self.numbers[at + 1]) = (log_len, keys);
                self.serials[mark_serial(mark as usize)] = serial;
                Some(())
            }
            Damage::Lend {
                parents,
                crowns,
                amounts,
                log,
            } => self.lend_anew([parents, crowns, amounts, log].map(|len| len as usize)),
        }
    }

    fn set_row(&mut self, key: usize, row: &Row) -> Option<()> {
        put(&mut self.parents, key, row.parent);
        put(&mut self.crowns, CROWN * key, row.rank);
        put(&mut self.crowns, CROWN * key + 1, row.owner);
        put(&mut self.amounts, key, row.amount);
        (key < self.rows()).then_some(())
    }

    fn set_entry(&mut self, entry: usize, kind: u32, key: u32, row: &Row) -> Option<()> {
        let (low, high) = (row.amount as u32, (row.amount >> 32) as u32);
        let numbers = [kind, key, row.parent, row.rank, row.owner, low, high];
        for (place, number) in numbers.into_iter().enumerate() {
            put(&mut self.log, ENTRY * entry + place, number);
        }
        (entry < self.entries()).then_some(())
    }

    fn lend_anew(&mut self, lens: [usize; 4]) -> Option<()> {
        let most = [
            MOST_ROWS,
            CROWN * MOST_ROWS,
            MOST_ROWS,
            ENTRY * MOST_ENTRIES,
        ];
        if lens.iter().zip(most).any(|(&len, most)| len > most) {
            return None;
        }
        let [parents, crowns, amounts, log] = lens;
        lend(&mut self.parents, parents);
        lend(&mut self.crowns, crowns);
        lend(&mut self.amounts, amounts);
        lend(&mut self.log, log);
        Some(())
    }
}
