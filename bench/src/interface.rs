//! What the interface alone takes: a function of the same shape that does nothing but answer.

use crate::ffi::Exported;

/// Reads the call's code and writes nine numbers.
#[inline(never)]
#[rustfmt::skip] // a slice a line
unsafe extern "C" fn nothing(
    _: *mut u32, _: usize, _: *mut u64, _: usize, _: *mut u32, _: usize, _: *mut u32, _: usize, _: *mut u64, _: usize,
    _: *mut u32, _: usize,
    call: *const u64, _: usize,
    answer: *mut u64, _: usize,
) -> u32 {
    answer.cast::<[u64; 9]>().write([*call; 9]);
    0
}

pub const NOTHING: Exported = nothing;
