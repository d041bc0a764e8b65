//! The numbers that a call is lent as (docs/LIBRARY.md).

use crate::command::Call;
use crate::ffi::CALL;

pub const ACTIONS: u64 = 13;

pub fn numbers_of(call: &Call) -> [u64; CALL] {
    match *call {
        Call::New { owner, amount } => [0, owner.into(), amount, 0],
        Call::Len => [1, 0, 0, 0],
        Call::Find(key) => [2, key.into(), 0, 0],
        Call::Unioned(a, b) => [3, a.into(), b.into(), 0],
        Call::Join(a, b) => [4, a.into(), b.into(), 0],
        Call::Post { key, owner, amount } => [5, key.into(), owner.into(), amount],
        Call::Probe(key) => [6, key.into(), 0, 0],
        Call::ProbeKey(key) => [7, key.into(), 0, 0],
        Call::TryProbe(key) => [8, key.into(), 0, 0],
        Call::Snapshot => [9, 0, 0, 0],
        Call::Rollback(token) => [10, token, 0, 0],
        Call::Commit(token) => [11, token, 0, 0],
        Call::Keys(token) => [12, token, 0, 0],
        Call::Actions(token) => [ACTIONS, token, 0, 0],
        Call::Changes(token) => [14, token, 0, 0],
    }
}
