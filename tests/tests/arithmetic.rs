//! Calculations, comparison and rounding, beside the second interpreter.

use second::numbers::{self, Number, Operation};
use station_tests::arithmetic::{
    compare, decimals, integers, one, rounded, whole, DECIMAL, INTEGER,
};
use station_tests::random::Random;
use std::cmp::Ordering;

const INTEGER_LIMIT: i64 = 2_000_000_000;
const DECIMAL_LIMIT: i64 = INTEGER_LIMIT * 1_000_000;
const CASES: u64 = 1_000_000;
const OPERATIONS: [Operation; 4] = [
    Operation::Add,
    Operation::Subtract,
    Operation::Multiply,
    Operation::Divide,
];

/// Ends of the ranges, halves, zeros and small numbers, with what lies beside each, and the ends of 64 bits.
fn edges() -> Vec<i64> {
    let mut found = vec![i64::MIN, i64::MIN + 1, i64::MAX - 1, i64::MAX];
    for middle in [
        0,
        500_000,
        1_000_000,
        1_500_000,
        3_000_000,
        44_721,
        44_721_359,
        INTEGER_LIMIT,
        DECIMAL_LIMIT,
    ] {
        for n in middle - 2..=middle + 2 {
            found.extend([n, -n]);
        }
    }
    found
}

fn operand(random: &mut Random, edges: &[i64], limit: i64) -> i64 {
    match random.below(4) {
        0 => random.pick(edges),
        // half of a millionth, and what lies beside it
        1 => {
            random.any_length(limit) / 1_000_000 * 1_000_000 + 500_000 + random.below(3) as i64 - 1
        }
        2 => random.any_length(limit),
        _ => random.any_length(limit + limit / 100),
    }
}

/// Every pair of edges with every operation, then random operands.
fn pairs(limit: i64, mut check: impl FnMut(usize, i64, i64)) {
    let edges = edges();
    for &a in &edges {
        for &b in &edges {
            (0..4).for_each(|k| check(k, a, b));
        }
    }
    let mut random = Random::new(0x5eed);
    for _ in 0..CASES {
        let (a, b) = (
            operand(&mut random, &edges, limit),
            operand(&mut random, &edges, limit),
        );
        check(random.below(4) as usize, a, b);
    }
}

/// "IV takes an integer and divides toward zero."
#[test]
fn integer_calculations() {
    pairs(INTEGER_LIMIT, |k, a, b| {
        assert_eq!(
            integers(k as u32, a, b),
            numbers::on_integers(OPERATIONS[k], a, b),
            "{:?} {a} {b}",
            OPERATIONS[k]
        );
    });
}

/// "FV takes a number; products and quotients are rounded to the nearest millionth, halves away from zero, then checked for range."
#[test]
fn decimal_calculations() {
    pairs(DECIMAL_LIMIT, |k, a, b| {
        assert_eq!(
            decimals(k as u32, a, b),
            numbers::on_decimals(OPERATIONS[k], a, b),
            "{:?} {a} {b}",
            OPERATIONS[k]
        );
    });
}

fn singles(mut check: impl FnMut(i64)) {
    let edges = edges();
    edges.iter().copied().for_each(&mut check);
    let mut random = Random::new(0xface);
    for _ in 0..CASES {
        check(operand(&mut random, &edges, DECIMAL_LIMIT));
    }
}

/// "|ABS", "|INT (an integer, toward zero)", and an integer where a decimal is taken.
#[test]
fn conversions() {
    let plain = |n: Number| match n {
        Number::Integer(n) | Number::Decimal(n) => n,
    };
    singles(|n| {
        assert_eq!(
            one(0, n),
            numbers::absolute(Number::Integer(n)).map(plain),
            "{n}"
        );
        assert_eq!(
            one(1, n),
            numbers::absolute(Number::Decimal(n)).map(plain),
            "{n}"
        );
        assert_eq!(one(2, n), numbers::integer_to_decimal(n), "{n}");
        assert_eq!(whole(INTEGER, n), n);
        if let Ok(expected) = numbers::decimal_to_integer(n) {
            assert_eq!(whole(DECIMAL, n), expected, "{n}");
        }
    });
}

/// "two numbers, by value"
#[test]
fn comparison_across_kinds() {
    let number = |kind: u8, n: i64| {
        if kind == INTEGER {
            Number::Integer(n)
        } else {
            Number::Decimal(n)
        }
    };
    pairs(DECIMAL_LIMIT, |k, a, b| {
        let kinds = [
            (INTEGER, INTEGER),
            (INTEGER, DECIMAL),
            (DECIMAL, INTEGER),
            (DECIMAL, DECIMAL),
        ][k];
        // an integer beside a decimal of nearly its value
        for (a, b) in [(a, b), (a / 1_000_000, a), (a, a)] {
            let order = numbers::compare(number(kinds.0, a), number(kinds.1, b));
            let (a, b) = ((kinds.0, a), (kinds.1, b));
            assert_eq!(compare(0, a, b), order == Ordering::Less, "{a:?} {b:?}");
            assert_eq!(compare(1, a, b), order != Ordering::Greater, "{a:?} {b:?}");
            assert_eq!(compare(2, a, b), order == Ordering::Equal, "{a:?} {b:?}");
        }
    });
}

/// "rounded to d places, halves away from zero"
#[test]
fn rounding_to_places() {
    singles(|n| {
        for places in 0..=7 {
            let expected = (places <= 6 && n.unsigned_abs() <= DECIMAL_LIMIT as u64)
                .then(|| numbers::rounded(n, places as u8).unsigned_abs());
            assert_eq!(rounded(DECIMAL, n, places), expected, "{n} {places}");
            let integer = numbers::integer_to_decimal(n).ok().filter(|_| places <= 6);
            let expected = integer.map(|m| numbers::rounded(m, places as u8).unsigned_abs());
            assert_eq!(rounded(INTEGER, n, places), expected, "{n} {places}");
        }
    });
}
