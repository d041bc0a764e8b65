//! Why a call, or a whole list, was not done.

use std::error::Error;
use std::fmt;

/// Why a call, or something asked of a journal, was refused: the names and numbers of documents 01 and 02.
///
/// [`OwnerClash`](Refusal::OwnerClash) and [`TooMuch`](Refusal::TooMuch) keep what the call's walks rewrote, which
/// changes no answer but the steps of later ones. Every other refusal leaves the table untouched.
#[derive(Clone, Copy, Debug, PartialEq, Eq, Hash)]
#[repr(u8)]
pub enum Refusal {
    /// A named key is not below the count.
    NoKey = 1,
    /// All lent rows are live.
    KeysFull = 2,
    /// A snapshot is open and the entries that the call would log don't fit.
    LogFull = 3,
    /// The merge of two different named owners.
    OwnerClash = 4,
    /// Owners merge, but the sum is above [`u64::MAX`].
    TooMuch = 5,
    /// Rollback or commit with a token that isn't the innermost open snapshot's.
    NotInnermost = 6,
    /// 32 snapshots are open.
    TooDeep = 7,
    /// Damaged memory. A [`Meter`](crate::Meter) owns its memory and never gets it.
    BrokenTable = 8,
    /// More rows or log than the limits, or a state that is none.
    BadState = 9,
    /// The last serial is [`u64::MAX`].
    SerialsSpent = 10,
    /// No open snapshot has the token.
    NotOpen = 11,
    /// Bytes that are no journal, entries that can't stand in one, or a journal with another number of open snapshots
    /// than the meter has.
    BadJournal = 12,
    /// The journal would be longer than its limit.
    NoRoom = 16,
}

impl Refusal {
    /// All of them, by number.
    pub const ALL: [Refusal; 13] = [
        Refusal::NoKey,
        Refusal::KeysFull,
        Refusal::LogFull,
        Refusal::OwnerClash,
        Refusal::TooMuch,
        Refusal::NotInnermost,
        Refusal::TooDeep,
        Refusal::BrokenTable,
        Refusal::BadState,
        Refusal::SerialsSpent,
        Refusal::NotOpen,
        Refusal::BadJournal,
        Refusal::NoRoom,
    ];

    /// The number: 1 to 12, or 16.
    pub fn number(self) -> u64 {
        self as u64
    }

    /// The refusal of that number, if there is one. 0 is DONE.
    pub fn from_number(number: u64) -> Option<Refusal> {
        Refusal::ALL.into_iter().find(|refusal| refusal.number() == number)
    }

    /// The name, as `NO_KEY`.
    pub fn name(self) -> &'static str {
        match self {
            Refusal::NoKey => "NO_KEY",
            Refusal::KeysFull => "KEYS_FULL",
            Refusal::LogFull => "LOG_FULL",
            Refusal::OwnerClash => "OWNER_CLASH",
            Refusal::TooMuch => "TOO_MUCH",
            Refusal::NotInnermost => "NOT_INNERMOST",
            Refusal::TooDeep => "TOO_DEEP",
            Refusal::BrokenTable => "BROKEN_TABLE",
            Refusal::BadState => "BAD_STATE",
            Refusal::SerialsSpent => "SERIALS_SPENT",
            Refusal::NotOpen => "NOT_OPEN",
            Refusal::BadJournal => "BAD_JOURNAL",
            Refusal::NoRoom => "NO_ROOM",
        }
    }
}

impl fmt::Display for Refusal {
    fn fmt(&self, text: &mut fmt::Formatter<'_>) -> fmt::Result {
        write!(text, "{} ({})", self.name(), self.number())
    }
}

impl Error for Refusal {}

/// Why a list of numbers was not carried out at all. Nothing was written then.
#[derive(Clone, Copy, Debug, PartialEq, Eq, Hash)]
#[repr(u8)]
pub enum NotCarriedOut {
    /// The lent state is of another length. A [`Meter`](crate::Meter) never gets it.
    NoState = 1,
    /// The list's length is no multiple of 4, or four of its numbers are no call.
    NoCall = 2,
    /// Fewer than nine numbers of room for each answer.
    NoAnswers = 3,
}

impl NotCarriedOut {
    pub(crate) fn check(returned: u32) -> Result<(), NotCarriedOut> {
        match returned {
            0 => Ok(()),
            1 => Err(NotCarriedOut::NoState),
            2 => Err(NotCarriedOut::NoCall),
            3 => Err(NotCarriedOut::NoAnswers),
            other => panic!("the archive returned {other}, which this crate doesn't know"),
        }
    }

    /// The name, as `NO_CALL`.
    pub fn name(self) -> &'static str {
        match self {
            NotCarriedOut::NoState => "NO_STATE",
            NotCarriedOut::NoCall => "NO_CALL",
            NotCarriedOut::NoAnswers => "NO_ANSWERS",
        }
    }
}

impl fmt::Display for NotCarriedOut {
    fn fmt(&self, text: &mut fmt::Formatter<'_>) -> fmt::Result {
        text.write_str(self.name())
    }
}

impl Error for NotCarriedOut {}
