//! Fields beside the second interpreter: the bytes of the field, and every other byte of the buffer.

use second::fields::field;
use second::Value;
use station_tests::arithmetic::{DECIMAL, INTEGER};
use station_tests::field::{missing, number, string};
use station_tests::random::Random;

const INTEGER_LIMIT: i64 = 2_000_000_000;
const DECIMAL_LIMIT: i64 = INTEGER_LIMIT * 1_000_000;
const CASES: u64 = 1_000_000;
/// The buffer's bytes before a call.
const BLANK: u8 = 0xa5;

/// Calls with a field at `at` in a buffer of `length` bytes, and compares the whole buffer.
fn compare(
    expected: Option<Vec<u8>>,
    length: usize,
    at: usize,
    call: impl FnOnce(&mut [u8]) -> bool,
) {
    let (mut buffer, mut wanted) = (vec![BLANK; length], vec![BLANK; length]);
    let there = match expected {
        Some(bytes) if at + bytes.len() <= length => {
            wanted[at..at + bytes.len()].copy_from_slice(&bytes);
            true
        }
        _ => false,
    };
    assert_eq!(call(&mut buffer), there);
    assert_eq!(buffer, wanted);
}

fn number_case(kind: u8, n: i64, width: usize, places: Option<usize>, length: usize, at: usize) {
    let (value, limit) = match kind {
        INTEGER => (Value::Integer(n), INTEGER_LIMIT),
        _ => (Value::Decimal(n), DECIMAL_LIMIT),
    };
    let allowed =
        (1..=32).contains(&width) && places.unwrap_or(0) <= 6 && n.unsigned_abs() <= limit as u64;
    let expected = allowed.then(|| field(&value, width as u8, places.map(|d| d as u8)));
    compare(expected, length, at, |buffer| {
        number(buffer, at, width, places, kind, n)
    });
}

/// Each kind with no places and with 0 to 7.
fn every_form(mut check: impl FnMut(u8, Option<usize>)) {
    for kind in [INTEGER, DECIMAL] {
        check(kind, None);
        (0..=7).for_each(|d| check(kind, Some(d)));
    }
}

/// Every width and number of places, one past each, for numbers at the ends of their ranges, at halves and at zero.
#[test]
fn numbers_at_every_width() {
    let mut numbers = vec![i64::MIN, i64::MAX];
    for middle in [
        0,
        1,
        9,
        10,
        99,
        499_999,
        500_000,
        999_999,
        1_500_000,
        1_234_000_000,
        INTEGER_LIMIT,
        DECIMAL_LIMIT,
    ] {
        for n in middle - 1..=middle + 1 {
            numbers.extend([n, -n]);
        }
    }
    for &n in &numbers {
        for width in 0..=33 {
            every_form(|kind, places| number_case(kind, n, width, places, 40, 3));
        }
    }
}

/// "numbers are right-aligned, rounded to d places", "A number too long becomes w asterisks."
#[test]
fn numbers_at_random() {
    let mut random = Random::new(0xf1e1d);
    for _ in 0..CASES {
        let kind = random.pick(&[INTEGER, DECIMAL]);
        let n = random.any_length(if kind == INTEGER {
            INTEGER_LIMIT
        } else {
            DECIMAL_LIMIT
        });
        let places = random.pick(&[
            None,
            Some(0),
            Some(1),
            Some(2),
            Some(3),
            Some(4),
            Some(5),
            Some(6),
        ]);
        let width = 1 + random.below(32) as usize;
        number_case(kind, n, width, places, 34, random.below(4) as usize);
    }
}

/// A field that just fits its buffer and one that just doesn't, at every width; and places far past the end.
#[test]
fn fields_at_the_end_of_the_buffer() {
    for width in 0..=33 {
        for length in 0..=36 {
            for at in 0..=length + 1 {
                number_case(INTEGER, -42, width, None, length, at);
            }
            for at in [usize::MAX - 32, usize::MAX] {
                compare(None, length, 0, |buffer| {
                    number(buffer, at, width, None, INTEGER, -42)
                });
                compare(None, length, 0, |buffer| missing(buffer, at, width));
            }
        }
    }
}

/// "Strings are left-aligned, filled with spaces or cut to w", "Missing prints as `???`, like a string."
#[test]
fn strings_and_missing() {
    let text = b"Cs-137 and more than sixteen bytes of it";
    for width in 0..=33 {
        let allowed = (1..=32).contains(&width);
        for end in 0..=text.len() {
            let expected =
                allowed.then(|| field(&Value::String(text[..end].to_vec()), width as u8, None));
            compare(expected, 40, 2, |buffer| {
                string(buffer, 2, width, &text[..end])
            });
        }
        let expected = allowed.then(|| field(&Value::Missing, width as u8, None));
        compare(expected, 40, 2, |buffer| missing(buffer, 2, width));
    }
}
