//! Integers and decimals: ranges, arithmetic, comparison and rounding.
//!
//! A decimal is a count of millionths. Every function is total: an operand out
//! of range is 13.

use crate::endings::{OUT_OF_RANGE, ZERO_DIVISOR};
use std::cmp::Ordering;

/// Integers lie within plus or minus this.
pub const INTEGER_LIMIT: i64 = 2_000_000_000;
/// The millionths in one.
pub const MILLION: i64 = 1_000_000;
/// Decimals lie within plus or minus this many millionths.
pub const DECIMAL_LIMIT: i64 = INTEGER_LIMIT * MILLION;
/// The most places a decimal is printed with.
pub const MOST_PLACES: u8 = 6;

/// What `$SETA`, `$SETS`, `$SETM` and `$SETD` do.
#[derive(Clone, Copy, Debug, PartialEq, Eq)]
pub enum Operation {
    Add,
    Subtract,
    Multiply,
    Divide,
}

/// A number of either kind.
#[derive(Clone, Copy, Debug, PartialEq, Eq)]
pub enum Number {
    Integer(i64),
    /// A count of millionths.
    Decimal(i64),
}

/// Integer arithmetic; division goes toward zero.
pub fn on_integers(operation: Operation, a: i64, b: i64) -> Result<i64, u32> {
    let a = i128::from(within(INTEGER_LIMIT, a.into())?);
    let b = i128::from(within(INTEGER_LIMIT, b.into())?);
    let exact = match operation {
        Operation::Add => a + b,
        Operation::Subtract => a - b,
        Operation::Multiply => a * b,
        Operation::Divide if b == 0 => return Err(ZERO_DIVISOR),
        Operation::Divide => a / b,
    };
    within(INTEGER_LIMIT, exact)
}

/// Decimal arithmetic; products and quotients are rounded to the nearest
/// millionth, then checked for range.
pub fn on_decimals(operation: Operation, a: i64, b: i64) -> Result<i64, u32> {
    let a = i128::from(within(DECIMAL_LIMIT, a.into())?);
    let b = i128::from(within(DECIMAL_LIMIT, b.into())?);
    let million = i128::from(MILLION);
    let rounded = match operation {
        Operation::Add => a + b,
        Operation::Subtract => a - b,
        Operation::Multiply => nearest(a * b, million),
        Operation::Divide if b == 0 => return Err(ZERO_DIVISOR),
        Operation::Divide => nearest(a * million, b),
    };
    within(DECIMAL_LIMIT, rounded)
}

/// An integer as a decimal.
pub fn integer_to_decimal(integer: i64) -> Result<i64, u32> {
    Ok(within(INTEGER_LIMIT, integer.into())? * MILLION)
}

/// A decimal as an integer, toward zero.
pub fn decimal_to_integer(millionths: i64) -> Result<i64, u32> {
    Ok(within(DECIMAL_LIMIT, millionths.into())? / MILLION)
}

/// A number without its sign, of the same kind.
pub fn absolute(number: Number) -> Result<Number, u32> {
    Ok(match number {
        Number::Integer(n) => Number::Integer(within(INTEGER_LIMIT, n.into())?.abs()),
        Number::Decimal(n) => Number::Decimal(within(DECIMAL_LIMIT, n.into())?.abs()),
    })
}

/// Comparison by value, whatever the kinds.
pub fn compare(a: Number, b: Number) -> Ordering {
    millionths(a).cmp(&millionths(b))
}

/// A decimal rounded to a number of places, halves away from zero, as a count
/// of units of the last place. More than six places count as six.
pub fn rounded(millionths: i64, places: u8) -> i64 {
    let dropped = MOST_PLACES - places.min(MOST_PLACES);
    // No larger than before, so it fits.
    nearest(millionths.into(), power_of_ten(dropped)) as i64
}

/// Ten to the power of a number of places.
pub(crate) fn power_of_ten(places: u8) -> i128 {
    10_i128.pow(places.into())
}

/// A quotient rounded to the nearest whole, halves away from zero.
fn nearest(numerator: i128, divisor: i128) -> i128 {
    let magnitude = (2 * numerator.abs() + divisor.abs()) / (2 * divisor.abs());
    magnitude * numerator.signum() * divisor.signum()
}

fn millionths(number: Number) -> i128 {
    match number {
        Number::Integer(n) => i128::from(n) * i128::from(MILLION),
        Number::Decimal(n) => n.into(),
    }
}

fn within(limit: i64, value: i128) -> Result<i64, u32> {
    if value.abs() <= limit.into() {
        Ok(value as i64)
    } else {
        Err(OUT_OF_RANGE)
    }
}
