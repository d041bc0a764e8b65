//! Calls and answers, and the numbers that they are lent as.

use std::num::NonZeroU32;

use crate::ffi;
use crate::refusal::Refusal;

/// A key of the table. The first is 0, each further one is one more.
#[derive(Clone, Copy, Debug, Default, PartialEq, Eq, PartialOrd, Ord, Hash)]
pub struct Key(u32);

impl Key {
    /// The key of that index, live or not: a call with one that isn't live is refused.
    pub fn from_index(index: u32) -> Key {
        Key(index)
    }

    /// The key's place among the rows.
    pub fn index(self) -> u32 {
        self.0
    }
}

/// What a group has: an owner, or none, and an amount.
#[derive(Clone, Copy, Debug, Default, PartialEq, Eq, Hash)]
pub struct Value {
    /// The tenant, or none.
    pub owner: Option<NonZeroU32>,
    /// Byte-seconds.
    pub amount: u64,
}

impl Value {
    /// Owner 0 means none.
    pub fn new(owner: u32, amount: u64) -> Value {
        Value {
            owner: NonZeroU32::new(owner),
            amount,
        }
    }

    fn owner_number(self) -> u64 {
        self.owner.map_or(0, |owner| u64::from(owner.get()))
    }
}

/// Names a snapshot of one [`Meter`](crate::Meter). It is a plain number that may be copied; once its snapshot is
/// rolled back or committed it is refused, since no other snapshot of that meter gets the same one.
#[derive(Clone, Copy, Debug, Default, PartialEq, Eq, Hash)]
pub struct Token(u64);

impl Token {
    /// The snapshot's serial. The first is 1.
    pub fn serial(self) -> u64 {
        self.0
    }
}

/// A call, for [`Meter::call`](crate::Meter::call) and for lists.
#[derive(Clone, Copy, Debug, PartialEq, Eq)]
pub enum Call {
    /// `new_key`
    New(Value),
    /// `len`
    Len,
    /// `find`
    Find(Key),
    /// `unioned`
    Unioned(Key, Key),
    /// `unify_var_var`
    Join(Key, Key),
    /// `unify_var_value`
    Post(Key, Value),
    /// `probe_value`
    Probe(Key),
    /// `probe_key_value`
    ProbeKey(Key),
    /// `try_probe_value`
    TryProbe(Key),
    /// `snapshot`
    Snapshot,
    /// `rollback_to`
    Rollback(Token),
    /// `commit`
    Commit(Token),
    /// `vars_since_snapshot`
    Keys(Token),
    /// `actions_since_snapshot`
    Actions(Token),
    /// `has_changes`
    Changes(Token),
}

impl Call {
    /// The call as it is lent: a code and three numbers.
    pub fn numbers(self) -> [u64; ffi::CALL] {
        let key = |key: Key| u64::from(key.0);
        match self {
            Call::New(value) => [0, value.owner_number(), value.amount, 0],
            Call::Len => [1, 0, 0, 0],
            Call::Find(k) => [2, key(k), 0, 0],
            Call::Unioned(a, b) => [3, key(a), key(b), 0],
            Call::Join(a, b) => [4, key(a), key(b), 0],
            Call::Post(k, value) => [5, key(k), value.owner_number(), value.amount],
            Call::Probe(k) => [6, key(k), 0, 0],
            Call::ProbeKey(k) => [7, key(k), 0, 0],
            Call::TryProbe(k) => [8, key(k), 0, 0],
            Call::Snapshot => [9, 0, 0, 0],
            Call::Rollback(token) => [10, token.0, 0, 0],
            Call::Commit(token) => [11, token.0, 0, 0],
            Call::Keys(token) => [12, token.0, 0, 0],
            Call::Actions(token) => [13, token.0, 0, 0],
            Call::Changes(token) => [14, token.0, 0, 0],
        }
    }
}

/// All that a call answers. What a call doesn't name is 0, none or no.
#[derive(Clone, Debug, Default, PartialEq, Eq)]
pub struct Answer {
    /// None where the call was done.
    pub refusal: Option<Refusal>,
    /// New: the key. Find, probe key: the root.
    pub key: Key,
    /// Snapshot: the token.
    pub token: Token,
    /// Probes: the group's value.
    pub value: Value,
    /// Calls that walk: the redirects followed, both walks summed.
    pub steps: u64,
    /// Unioned, changes: the answer. Try probe: whether there is a value.
    pub yes: bool,
    /// Keys, actions: where the range begins.
    pub from: u32,
    /// Keys, actions: where it ends, the end not in it. Len: the count.
    pub to: u32,
}

impl Answer {
    /// Reads the nine numbers of an answer.
    ///
    /// # Panics
    ///
    /// Where they are no answer: a number that is no refusal's, or a key, owner or range of 2^32 or above.
    pub(crate) fn read(numbers: &[u64]) -> Answer {
        let narrow = |at: usize| u32::try_from(numbers[at]).expect("keys, owners and ranges are below 2^32");
        Answer {
            refusal: (numbers[0] != 0).then(|| Refusal::from_number(numbers[0]).expect("a number of refusal")),
            key: Key(narrow(1)),
            token: Token(numbers[2]),
            value: Value::new(narrow(3), numbers[4]),
            steps: numbers[5],
            yes: numbers[6] != 0,
            from: narrow(7),
            to: narrow(8),
        }
    }

    /// The answer itself where the call was done, else the refusal.
    pub fn done(self) -> Result<Answer, Refusal> {
        match self.refusal {
            None => Ok(self),
            Some(refusal) => Err(refusal),
        }
    }
}
