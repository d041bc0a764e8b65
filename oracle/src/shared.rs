//! One thing with two holders: the crate's table, which works on it, and the oracle, which looks at it.

use std::cell::UnsafeCell;
use std::rc::Rc;

/// The crate asks its vector for plain references (`AsRef`, `AsMut`), which no checked cell can give.
///
/// Why this is sound here: there is one thread; `get_mut` is called only by the crate's own calls, which
/// keep no reference when they return; the oracle looks only between those calls and keeps none either.
pub struct Shared<T>(Rc<UnsafeCell<T>>);

impl<T> Shared<T> {
    pub fn new(thing: T) -> Shared<T> {
        Shared(Rc::new(UnsafeCell::new(thing)))
    }

    /// A second holder of the same thing.
    pub fn twin(&self) -> Shared<T> {
        Shared(Rc::clone(&self.0))
    }

    pub fn get(&self) -> &T {
        // SAFETY: see the type; nothing is being written while this reference is held.
        unsafe { &*self.0.get() }
    }

    pub fn get_mut(&mut self) -> &mut T {
        // SAFETY: see the type; the other holder holds no reference during a call of the crate.
        unsafe { &mut *self.0.get() }
    }
}
