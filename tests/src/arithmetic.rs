//! Calculations, comparison and rounding.

use crate::ffi;
pub use crate::ffi::{compare, whole};

pub const INTEGER: u8 = 0x49;
pub const DECIMAL: u8 = 0x46;

/// What stands in `result` before a call: a refusal leaves it.
const BEFORE: i64 = 0x5a5a_5a5a;

fn told(call: impl FnOnce(&mut i64) -> u32) -> Result<i64, u32> {
    let mut result = BEFORE;
    match call(&mut result) {
        0 => Ok(result),
        number => {
            assert_eq!(result, BEFORE, "a refusal changed the result");
            Err(number)
        }
    }
}

pub fn integers(operation: u32, a: i64, b: i64) -> Result<i64, u32> {
    told(|result| ffi::integers(operation, a, b, result))
}

pub fn decimals(operation: u32, a: i64, b: i64) -> Result<i64, u32> {
    told(|result| ffi::decimals(operation, a, b, result))
}

pub fn one(operation: u32, a: i64) -> Result<i64, u32> {
    told(|result| ffi::one(operation, a, result))
}

pub fn rounded(kind: u8, n: i64, places: usize) -> Option<u64> {
    let mut units = BEFORE as u64;
    let there = ffi::rounded(kind, n, places, &mut units);
    assert!(
        there || units == BEFORE as u64,
        "units changed though there are none"
    );
    there.then_some(units)
}
