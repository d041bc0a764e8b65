//! The journal: the calls that changed a table, as bytes from which a table can be made again.

use std::error::Error;
use std::fmt;

use crate::call::{Call, Key, Value};
use crate::ffi::Memory;
use crate::journal_ffi::{self as ffi, Known, ENTRY_BYTES, SEGMENT, TRAILER_BYTES};
use crate::meter::Meter;
use crate::refusal::{NotCarriedOut, Refusal};

/// A journal that owns its bytes.
///
/// Calls are recorded by [`Meter::record`]. Their entries wait until a segment is ended: at its 2,048th entry, or by
/// [`Journal::flush`].
///
/// ```
/// use meter::{Call, Journal, Key, Meter, Value};
/// let mut day = Journal::empty();
/// let mut meter = Meter::new(1_000, 0)?;
/// let (a, b) = (Key::from_index(0), Key::from_index(1));
/// let calls = [Call::New(Value::new(7, 60_000)), Call::New(Value::new(0, 1_500)), Call::Join(a, b)];
/// meter.record(&mut day, &calls).unwrap();
/// let bytes = day.into_bytes();
///
/// let mut night = Meter::new(1_000, 0)?;
/// let mut day = Journal::from_bytes(bytes).unwrap();
/// assert_eq!(day.replay(&mut night), Ok(3));
/// assert_eq!(night.probe_key_value(a), meter.probe_key_value(a));
/// # Ok::<(), meter::Refusal>(())
/// ```
#[derive(Clone, Debug)]
pub struct Journal {
    /// Its segments, then the entries that wait, then room.
    bytes: Vec<u8>,
    known: Known,
    limit: usize,
}

impl Default for Journal {
    fn default() -> Journal {
        Journal::empty()
    }
}

impl Journal {
    /// A journal without entries. It grows as it needs to.
    pub fn empty() -> Journal {
        Journal::with_limit(usize::MAX)
    }

    /// A journal without entries that never gets longer than so many bytes: what would make it longer is
    /// [`Refusal::NoRoom`].
    pub fn with_limit(bytes: usize) -> Journal {
        Journal {
            bytes: Vec::new(),
            known: [0; 4],
            limit: bytes,
        }
    }

    /// The journal that these bytes are. Where they are none, the error has them.
    ///
    /// ```
    /// use meter::Journal;
    /// assert!(Journal::from_bytes(Vec::new()).unwrap().is_empty());
    /// assert_eq!(Journal::from_bytes(vec![1, 2, 3]).unwrap_err().into_bytes(), [1, 2, 3]);
    /// ```
    pub fn from_bytes(bytes: Vec<u8>) -> Result<Journal, NoJournal> {
        let mut known = [0; 4];
        match ffi::judge(&bytes, &mut known) {
            [0, _] => Ok(Journal {
                bytes,
                known,
                limit: usize::MAX,
            }),
            _ => Err(NoJournal { bytes }),
        }
    }

    /// How many entries it has, those that wait too.
    pub fn len(&self) -> usize {
        (self.used() - TRAILER_BYTES * self.segments()) / ENTRY_BYTES + self.waiting()
    }

    /// Whether it has none.
    pub fn is_empty(&self) -> bool {
        self.len() == 0
    }

    /// How many entries wait for their segment to be ended.
    pub fn waiting(&self) -> usize {
        self.known[ffi::WAITING] as usize
    }

    /// How many segments are ended.
    pub fn segments(&self) -> usize {
        self.known[ffi::SEGMENTS] as usize
    }

    /// How many snapshots are open at its end. [`Meter::record`] asks for a meter with as many.
    pub fn num_open_snapshots(&self) -> usize {
        self.known[ffi::OPEN] as usize
    }

    /// The segments that are ended: a whole journal, but for the entries that wait.
    pub fn bytes(&self) -> &[u8] {
        &self.bytes[..self.used()]
    }

    /// All of the journal.
    pub fn into_bytes(mut self) -> Vec<u8> {
        self.flush();
        self.bytes.truncate(self.used());
        self.bytes
    }

    /// Ends the segment of the entries that wait, if there are any.
    pub fn flush(&mut self) {
        let [no, _] = ffi::flush(&mut self.bytes, &mut self.known);
        assert_eq!(no, 0, "each entry was recorded with a trailer's room");
    }

    /// Appends entries as one segment, which 1 to 2,048 can be. What waits is made a segment first, in any case.
    /// Refused are entries with which the journal wouldn't be valid ([`Refusal::BadJournal`]), and those that don't fit
    /// into its limit ([`Refusal::NoRoom`]); none of them is appended then.
    ///
    /// ```
    /// use meter::{Entry, Journal, Refusal, Value};
    /// let mut journal = Journal::empty();
    /// journal.append(&[Entry::New(Value::new(7, 5)), Entry::Snapshot])?;
    /// journal.append(&[Entry::Rollback])?;
    /// assert_eq!(journal.append(&[Entry::Commit]), Err(Refusal::BadJournal)); // nothing is open
    /// assert_eq!((journal.len(), journal.bytes().len()), (3, 96));
    /// # Ok::<(), Refusal>(())
    /// ```
    pub fn append(&mut self, entries: &[Entry]) -> Result<(), Refusal> {
        self.append_bytes(&entries.iter().flat_map(|entry| entry.bytes()).collect::<Vec<_>>())
    }

    /// As [`Journal::append`], for entries that are bytes already, 24 each.
    pub fn append_bytes(&mut self, entries: &[u8]) -> Result<(), Refusal> {
        self.flush();
        let used = self.used();
        self.lengthen(used.saturating_add(entries.len()).saturating_add(TRAILER_BYTES));
        let [no, length] = ffi::append(&mut self.bytes, used, entries);
        if let Some(refusal) = refusal(no) {
            return Err(refusal);
        }
        let [no, _] = ffi::judge(&self.bytes[..length as usize], &mut self.known);
        assert_eq!(no, 0, "an append leaves a journal");
        Ok(())
    }

    /// Carries out the journal's entries on a meter, as [`Meter::replay`] does. What waits is made a segment first.
    pub fn replay(&mut self, meter: &mut Meter) -> Result<usize, Stopped> {
        self.flush();
        meter.replay(self.bytes())
    }

    pub(crate) fn record(
        &mut self,
        memory: &mut Memory,
        calls: &[Call],
        answers: &mut [u64],
    ) -> Result<(), NotCarriedOut> {
        let entries = self.waiting() + calls.iter().filter(|call| is_written(call)).count();
        self.lengthen(self.used() + ENTRY_BYTES * entries + TRAILER_BYTES * (entries / SEGMENT + 1));
        let numbers: Vec<u64> = calls.iter().flat_map(|call| call.numbers()).collect();
        NotCarriedOut::check(ffi::record(memory, &numbers, answers, &mut self.bytes, &mut self.known))
    }

    fn used(&self) -> usize {
        self.known[ffi::USED] as usize
    }

    /// Room for so many bytes in all, up to the limit.
    fn lengthen(&mut self, wanted: usize) {
        let wanted = wanted.min(self.limit);
        if self.bytes.len() < wanted {
            self.bytes.resize(wanted, 0);
        }
    }
}

/// The six kinds of calls that a journal has.
fn is_written(call: &Call) -> bool {
    use Call::{Commit, Join, New, Post, Rollback, Snapshot};
    matches!(call, New(_) | Post(..) | Join(..) | Snapshot | Rollback(_) | Commit(_))
}

pub(crate) fn refusal(no: u64) -> Option<Refusal> {
    (no != 0).then(|| Refusal::from_number(no).expect("a number of refusal"))
}

/// An entry of a journal. Rollback and commit are of the innermost snapshot.
#[derive(Clone, Copy, Debug, PartialEq, Eq)]
pub enum Entry {
    /// `new_key`
    New(Value),
    /// `unify_var_value`
    Post(Key, Value),
    /// `unify_var_var`
    Join(Key, Key),
    /// `snapshot`
    Snapshot,
    /// `rollback_to`
    Rollback,
    /// `commit`
    Commit,
}

impl Entry {
    /// The entry as a journal has it, little-endian: kind, key a, key b, owner, amount.
    pub fn bytes(self) -> [u8; ENTRY_BYTES] {
        let nothing = Value::default();
        let none = Key::default();
        let (kind, a, b, value) = match self {
            Entry::New(value) => (1, none, none, value),
            Entry::Post(key, value) => (2, key, none, value),
            Entry::Join(a, b) => (3, a, b, nothing),
            Entry::Snapshot => (4, none, none, nothing),
            Entry::Rollback => (5, none, none, nothing),
            Entry::Commit => (6, none, none, nothing),
        };
        let owner = value.owner.map_or(0, |owner| owner.get());
        let mut bytes = [0; ENTRY_BYTES];
        for (at, word) in [kind, a.index(), b.index(), owner].into_iter().enumerate() {
            bytes[4 * at..4 * at + 4].copy_from_slice(&word.to_le_bytes());
        }
        bytes[16..].copy_from_slice(&value.amount.to_le_bytes());
        bytes
    }
}

/// Bytes that are no journal.
#[derive(Clone, Debug, PartialEq, Eq)]
pub struct NoJournal {
    bytes: Vec<u8>,
}

impl NoJournal {
    /// The bytes.
    pub fn into_bytes(self) -> Vec<u8> {
        self.bytes
    }
}

impl fmt::Display for NoJournal {
    fn fmt(&self, text: &mut fmt::Formatter<'_>) -> fmt::Result {
        write!(text, "{}: {} bytes", Refusal::BadJournal, self.bytes.len())
    }
}

impl Error for NoJournal {}

/// Where a replay stopped. The entries before it are carried out.
#[derive(Clone, Copy, Debug, PartialEq, Eq, Hash)]
pub struct Stopped {
    /// What the entry was answered. [`Refusal::BadJournal`] where the bytes are no journal: nothing is carried out
    /// then.
    pub refusal: Refusal,
    /// The entry's place, the first being 0.
    pub entry: usize,
}

impl fmt::Display for Stopped {
    fn fmt(&self, text: &mut fmt::Formatter<'_>) -> fmt::Result {
        match self.refusal {
            Refusal::BadJournal => write!(text, "{}", self.refusal),
            refusal => write!(text, "entry {}: {refusal}", self.entry),
        }
    }
}

impl Error for Stopped {}
