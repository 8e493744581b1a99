//! Fields: a value printed in a width.

use crate::numbers::{power_of_ten, rounded, MOST_PLACES};
use crate::values::Value;

/// Prints a value in a field of a width, with a number of places or without.
/// More than six places count as six.
pub fn field(value: &Value, width: u8, places: Option<u8>) -> Vec<u8> {
    let width = usize::from(width);
    let places = places.map(|d| d.min(MOST_PLACES));
    match value {
        Value::Integer(n) => {
            let places = places.unwrap_or(0);
            number(i128::from(*n) * power_of_ten(places), places, width)
        }
        Value::Decimal(n) => {
            let places = places.unwrap_or(MOST_PLACES);
            number(rounded(*n, places).into(), places, width)
        }
        Value::String(bytes) => left_aligned(bytes, width),
        Value::Missing => left_aligned(b"???", width),
    }
}

/// A count of units of the last place, right-aligned, or asterisks.
fn number(units: i128, places: u8, width: usize) -> Vec<u8> {
    let places = usize::from(places);
    // One digit at least precedes the point.
    let mut digits = format!("{:0>least$}", units.abs(), least = places + 1);
    if places > 0 {
        digits.insert(digits.len() - places, '.');
    }
    if units < 0 {
        digits.insert(0, '-');
    }
    if digits.len() > width {
        return vec![b'*'; width];
    }
    format!("{digits:>width$}").into_bytes()
}

/// A string filled with spaces or cut to the width.
fn left_aligned(bytes: &[u8], width: usize) -> Vec<u8> {
    let mut printed = bytes.to_vec();
    printed.resize(width, b' ');
    printed
}
