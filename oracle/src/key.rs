//! The table's key, which counts the redirects that the crate follows.

use std::cell::Cell;
use std::fmt;

use ena::unify::UnifyKey;

use crate::value::Value;

thread_local! {
    static REDIRECTS: Cell<u64> = const { Cell::new(0) };
}

#[derive(Clone, Copy)]
pub struct Key(pub u32);

/// Runs `walks` and tells how many redirects the crate followed in it.
pub fn counting_steps<A>(walks: impl FnOnce() -> A) -> (A, u64) {
    REDIRECTS.set(0);
    let answer = walks();
    (answer, REDIRECTS.get())
}

/// `eq` and `ne` are written apart because the crate's walk asks `!=` of two keys exactly once for each
/// redirect that it follows, and asks it nowhere else. Every other test of keys is `==`.
#[allow(clippy::partialeq_ne_impl)]
impl PartialEq for Key {
    fn eq(&self, other: &Key) -> bool {
        self.0 == other.0
    }

    fn ne(&self, other: &Key) -> bool {
        REDIRECTS.set(REDIRECTS.get() + 1);
        self.0 != other.0
    }
}

/// The bare number: a row is read from its Debug text (see `fields`).
impl fmt::Debug for Key {
    fn fmt(&self, text: &mut fmt::Formatter<'_>) -> fmt::Result {
        write!(text, "{}", self.0)
    }
}

impl UnifyKey for Key {
    type Value = Value;

    fn index(&self) -> u32 {
        self.0
    }

    fn from_index(index: u32) -> Key {
        Key(index)
    }

    fn tag() -> &'static str {
        "meter"
    }
}
