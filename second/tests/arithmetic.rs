//! Numbers and fields, part by part.

use second::fields::field;
use second::numbers::Operation::{Add, Divide, Multiply, Subtract};
use second::numbers::{
    absolute, compare, decimal_to_integer, integer_to_decimal, on_decimals, on_integers, rounded,
    Number,
};
use second::Value;
use std::cmp::Ordering;

const INTEGER: i64 = 2_000_000_000;
const DECIMAL: i64 = 2_000_000_000_000_000;

#[test]
fn integers_divide_toward_zero() {
    for (a, b, quotient) in [
        (7, 2, 3),
        (-7, 2, -3),
        (7, -2, -3),
        (-7, -2, 3),
        (-INTEGER, -1, INTEGER),
        (1, INTEGER, 0),
        (-INTEGER, INTEGER, -1),
    ] {
        assert_eq!(on_integers(Divide, a, b), Ok(quotient));
    }
}

#[test]
fn integer_results_keep_to_the_range() {
    assert_eq!(on_integers(Add, INTEGER - 1, 1), Ok(INTEGER));
    assert_eq!(on_integers(Add, INTEGER, 1), Err(13));
    assert_eq!(on_integers(Subtract, -INTEGER, 1), Err(13));
    assert_eq!(on_integers(Subtract, 0, -INTEGER), Ok(INTEGER));
    assert_eq!(on_integers(Multiply, 44_721, -44_721), Ok(-1_999_967_841));
    assert_eq!(on_integers(Multiply, 44_722, 44_722), Err(13));
    assert_eq!(on_integers(Multiply, INTEGER, -INTEGER), Err(13));
}

#[test]
fn decimal_results_keep_to_the_range() {
    assert_eq!(on_decimals(Add, DECIMAL, 0), Ok(DECIMAL));
    assert_eq!(on_decimals(Add, DECIMAL, 1), Err(13));
    assert_eq!(on_decimals(Subtract, -DECIMAL, 1), Err(13));
    assert_eq!(on_decimals(Multiply, DECIMAL, DECIMAL), Err(13));
    assert_eq!(on_decimals(Divide, DECIMAL, 1), Err(13));
    assert_eq!(on_decimals(Divide, DECIMAL, DECIMAL), Ok(1_000_000));
}

#[test]
fn products_and_quotients_round_halves_away_from_zero() {
    assert_eq!(on_decimals(Multiply, 1, 499_999), Ok(0));
    assert_eq!(on_decimals(Multiply, -1, 500_000), Ok(-1));
    assert_eq!(on_decimals(Multiply, -1, -500_000), Ok(1));
    assert_eq!(on_decimals(Multiply, 3, 500_000), Ok(2));
    assert_eq!(on_decimals(Divide, 2_000_000, 3_000_000), Ok(666_667));
    assert_eq!(on_decimals(Divide, -2_000_000, 3_000_000), Ok(-666_667));
    assert_eq!(on_decimals(Divide, 1, 2_000_000), Ok(1));
    assert_eq!(on_decimals(Divide, 1, -2_000_000), Ok(-1));
    assert_eq!(on_decimals(Divide, 1, 2_000_001), Ok(0));
    assert_eq!(on_decimals(Divide, 0, -5), Ok(0));
}

#[test]
fn an_operand_out_of_range_is_13_before_a_zero_divisor_is_12() {
    for operation in [Add, Subtract, Multiply, Divide] {
        for far in [INTEGER + 1, -INTEGER - 1, i64::MAX, i64::MIN] {
            assert_eq!(on_integers(operation, far, 0), Err(13));
            assert_eq!(on_integers(operation, 0, far), Err(13));
        }
        for far in [DECIMAL + 1, -DECIMAL - 1, i64::MAX, i64::MIN] {
            assert_eq!(on_decimals(operation, far, 0), Err(13));
            assert_eq!(on_decimals(operation, 0, far), Err(13));
        }
    }
    assert_eq!(on_integers(Divide, INTEGER, 0), Err(12));
    assert_eq!(on_decimals(Divide, 0, 0), Err(12));
}

#[test]
fn conversions_between_kinds() {
    assert_eq!(integer_to_decimal(-INTEGER), Ok(-DECIMAL));
    assert_eq!(integer_to_decimal(INTEGER + 1), Err(13));
    assert_eq!(integer_to_decimal(i64::MIN), Err(13));
    assert_eq!(decimal_to_integer(1_999_999), Ok(1));
    assert_eq!(decimal_to_integer(-1_999_999), Ok(-1));
    assert_eq!(decimal_to_integer(-999_999), Ok(0));
    assert_eq!(decimal_to_integer(DECIMAL), Ok(INTEGER));
    assert_eq!(decimal_to_integer(DECIMAL + 1), Err(13));
}

#[test]
fn absolute_values_keep_their_kind() {
    assert_eq!(
        absolute(Number::Integer(-INTEGER)),
        Ok(Number::Integer(INTEGER))
    );
    assert_eq!(absolute(Number::Decimal(-1)), Ok(Number::Decimal(1)));
    assert_eq!(absolute(Number::Decimal(7)), Ok(Number::Decimal(7)));
    assert_eq!(absolute(Number::Integer(i64::MIN)), Err(13));
}

#[test]
fn comparison_is_by_value_across_kinds() {
    let one = Number::Integer(1);
    assert_eq!(compare(one, Number::Decimal(1_000_000)), Ordering::Equal);
    assert_eq!(compare(one, Number::Decimal(1_000_001)), Ordering::Less);
    assert_eq!(compare(Number::Decimal(1_000_001), one), Ordering::Greater);
    let far = Number::Integer(i64::MAX);
    assert_eq!(compare(far, Number::Decimal(i64::MAX)), Ordering::Greater);
}

#[test]
fn rounding_to_each_number_of_places() {
    let value = 1_555_555;
    let expected = [2, 16, 156, 1_556, 15_556, 155_556, 1_555_555];
    for (places, expected) in (0..).zip(expected) {
        assert_eq!(rounded(value, places), expected);
        assert_eq!(rounded(-value, places), -expected);
    }
    assert_eq!(rounded(499_999, 0), 0);
    assert_eq!(rounded(-500_000, 0), -1);
    assert_eq!(rounded(4, 5), 0);
    assert_eq!(rounded(-5, 5), -1);
    assert_eq!(rounded(i64::MIN, 6), i64::MIN);
    assert_eq!(rounded(i64::MAX, 255), i64::MAX);
}

fn printed(value: Value, width: u8, places: Option<u8>) -> String {
    String::from_utf8(field(&value, width, places)).unwrap()
}

#[test]
fn without_places_an_integer_has_0_and_a_decimal_6() {
    assert_eq!(printed(Value::Integer(-12), 5, None), "  -12");
    assert_eq!(printed(Value::Decimal(-1_500_000), 10, None), " -1.500000");
}

#[test]
fn numbers_are_right_aligned_and_rounded_to_d_places() {
    assert_eq!(printed(Value::Integer(5), 6, Some(2)), "  5.00");
    assert_eq!(printed(Value::Integer(-5), 9, Some(6)), "-5.000000");
    assert_eq!(printed(Value::Decimal(999_999), 4, Some(2)), "1.00");
    assert_eq!(printed(Value::Decimal(-5_000), 6, Some(2)), " -0.01");
    assert_eq!(printed(Value::Decimal(1_500_000), 1, Some(0)), "2");
    assert_eq!(
        printed(Value::Decimal(DECIMAL), 17, None),
        "2000000000.000000"
    );
}

#[test]
fn one_digit_precedes_the_point_and_zero_has_no_minus() {
    assert_eq!(printed(Value::Decimal(50_000), 5, Some(2)), " 0.05");
    assert_eq!(printed(Value::Decimal(-4_999), 5, Some(2)), " 0.00");
    assert_eq!(printed(Value::Decimal(-499_999), 2, Some(0)), " 0");
    assert_eq!(printed(Value::Integer(0), 1, Some(0)), "0");
}

#[test]
fn a_number_too_long_becomes_w_asterisks() {
    assert_eq!(printed(Value::Integer(-99), 2, None), "**");
    assert_eq!(printed(Value::Decimal(9_960_000), 3, Some(1)), "***");
    assert_eq!(printed(Value::Decimal(0), 7, None), "*******");
    assert_eq!(printed(Value::Integer(i64::MIN), 4, Some(6)), "****");
}

#[test]
fn strings_are_left_aligned_filled_or_cut_and_d_does_not_touch_them() {
    let string = |text: &str| Value::String(text.as_bytes().to_vec());
    assert_eq!(printed(string("Cs"), 4, None), "Cs  ");
    assert_eq!(printed(string("Cs-137"), 4, Some(1)), "Cs-1");
    assert_eq!(printed(string(""), 2, Some(6)), "  ");
}

#[test]
fn missing_prints_as_question_marks_like_a_string() {
    assert_eq!(printed(Value::Missing, 5, Some(2)), "???  ");
    assert_eq!(printed(Value::Missing, 3, None), "???");
    assert_eq!(printed(Value::Missing, 2, None), "??");
}
