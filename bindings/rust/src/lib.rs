//! The meter's table: keys in groups, each group with at most one owner and with the exact sum of what was charged to
//! its keys. Groups are joined and never parted, except that a snapshot can be taken and rolled back.
//!
//! The work is done by an archive whose code is proved against the meter's rules; this crate owns the memory that the
//! archive works on. Methods have the names of the Rust crate ena. Where ena would panic or wrap, the meter refuses and
//! says why ([`Refusal`]).
//!
//! ```
//! use meter::{Meter, Refusal, Value};
//!
//! fn main() -> Result<(), Refusal> {
//!     let mut meter = Meter::new(1_000, 4_000)?;
//!     let a = meter.new_key(Value::new(7, 60_000))?; // tenant 7, 60,000 byte-seconds
//!     let b = meter.new_key(Value::new(0, 1_500))?; // nobody's yet
//!
//!     let trial = meter.snapshot()?;
//!     meter.unify_var_var(a, b)?;
//!     assert_eq!(meter.probe_value(b)?, Value::new(7, 61_500));
//!     meter.rollback_to(trial)?;
//!
//!     assert!(!meter.unioned(a, b)?);
//!     assert_eq!(meter.probe_value(b)?, Value::new(0, 1_500));
//!     Ok(())
//! }
//! ```
//!
//! A [`Journal`] has the calls that changed a table; replayed into a fresh one it gives the same groups, owners and
//! amounts.
#![deny(unsafe_code)] // ffi and journal_ffi alone allow it
#![warn(missing_docs)]

mod actions;
mod call;
mod ffi;
mod journal;
mod journal_ffi;
mod meter;
mod refusal;

pub use actions::{Actions, Row, UndoLog};
pub use call::{Answer, Call, Key, Token, Value};
pub use journal::{Entry, Journal, NoJournal, Stopped};
pub use meter::Meter;
pub use refusal::{NotCarriedOut, Refusal};

/// The Rust of docs/LIBRARY.md, run as a test.
#[cfg(doctest)]
#[doc = include_str!("../../../docs/LIBRARY.md")]
struct LibraryPage;
