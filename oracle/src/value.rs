//! Document 01's value of a key: an owner, or none, and an amount.

use std::fmt;

use ena::unify::{EqUnifyValue, UnifyValue};

/// A named owner. It is an `EqUnifyValue`, so the crate itself decides which owners merge.
#[derive(Clone, Debug, PartialEq, Eq)]
pub struct Tenant(u32);

impl EqUnifyValue for Tenant {}

#[derive(Clone)]
pub struct Value {
    owner: Option<Tenant>,
    pub amount: u64,
}

/// Why two values do not merge, by document 01's numbers.
#[derive(Clone, Copy)]
pub enum Refusal {
    OwnerClash = 4,
    TooMuch = 5,
}

impl Value {
    /// Owner 0 means none.
    pub fn new(owner: u32, amount: u64) -> Value {
        let owner = if owner == 0 {
            None
        } else {
            Some(Tenant(owner))
        };
        Value { owner, amount }
    }

    pub fn owner_number(&self) -> u32 {
        self.owner.as_ref().map_or(0, |tenant| tenant.0)
    }
}

impl UnifyValue for Value {
    type Error = Refusal;

    /// Owners first: a clash is a clash whatever the sum.
    fn unify_values(a: &Value, b: &Value) -> Result<Value, Refusal> {
        let owner = Option::unify_values(&a.owner, &b.owner).map_err(|_| Refusal::OwnerClash)?;
        let amount = a.amount.checked_add(b.amount).ok_or(Refusal::TooMuch)?;
        Ok(Value { owner, amount })
    }
}

/// Two bare numbers: a row is read from its Debug text (see `fields`).
impl fmt::Debug for Value {
    fn fmt(&self, text: &mut fmt::Formatter<'_>) -> fmt::Result {
        write!(text, "{} {}", self.owner_number(), self.amount)
    }
}
