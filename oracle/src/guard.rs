//! The crate's panics, told from the oracle's own.

use std::cell::Cell;
use std::panic::{self, AssertUnwindSafe};

thread_local! {
    static IN_THE_CRATE: Cell<bool> = const { Cell::new(false) };
}

/// From here on a panic inside `unless_it_panics` prints no message; any other panic still does.
pub fn silence_the_crate() {
    let loud = panic::take_hook();
    panic::set_hook(Box::new(move |info| {
        if !IN_THE_CRATE.get() {
            loud(info)
        }
    }));
}

/// Nothing where the crate panics. The table is not used again then, so its state does not matter.
pub fn unless_it_panics<A>(call: impl FnOnce() -> A) -> Option<A> {
    IN_THE_CRATE.set(true);
    let outcome = panic::catch_unwind(AssertUnwindSafe(call));
    IN_THE_CRATE.set(false);
    outcome.ok()
}
