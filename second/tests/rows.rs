//! The paper's rows, its sample sheet and the slips it names.

mod common;
use common::*;
use second::fields::field;
use second::numbers::{on_decimals, on_integers, Operation};
use second::values::strings_agree;
use second::Value;

#[test]
fn product_of_a_millionth_and_a_half_is_a_millionth() {
    assert_eq!(on_decimals(Operation::Multiply, 1, 500_000), Ok(1));
    assert_eq!(
        prints("$SETE FV1 0.000001\n$SETM FV1 0.5\n{FV1,8}"),
        "0.000001\n"
    );
}

#[test]
fn minus_one_by_three_in_fv_is_minus_a_third() {
    assert_eq!(
        on_decimals(Operation::Divide, -1_000_000, 3_000_000),
        Ok(-333_333)
    );
    assert_eq!(prints("$SETE FV1 -1\n$SETD FV1 3\n{FV1,9}"), "-0.333333\n");
}

#[test]
fn iv_minus_seven_by_two_is_minus_three() {
    assert_eq!(on_integers(Operation::Divide, -7, 2), Ok(-3));
    assert_eq!(prints("$SETE IV1 -7\n$SETD IV1 2\n{IV1,2}"), "-3\n");
}

#[test]
fn two_thousand_million_times_two_is_13() {
    assert_eq!(on_integers(Operation::Multiply, 2_000_000_000, 2), Err(13));
    assert_eq!(ends("$SETE IV1 2000000000\n$SETM IV1 2"), (13, 3));
    assert_eq!(ends("$SETE FV1 2000000000\n$SETM FV1 2"), (13, 3));
}

#[test]
fn minus_two_fifths_in_3_0_is_zero_without_minus_and_a_half_is_one() {
    assert_eq!(field(&Value::Decimal(-400_000), 3, Some(0)), b"  0");
    assert_eq!(field(&Value::Decimal(500_000), 3, Some(0)), b"  1");
    assert_eq!(prints("{-0.4,3.0}|{0.5,3.0}"), "  0|  1\n");
}

#[test]
fn a_number_too_long_becomes_asterisks() {
    assert_eq!(field(&Value::Integer(1234), 3, None), b"***");
    assert_eq!(prints("{1234,3}"), "***\n");
}

#[test]
fn the_empty_string_equals_cs() {
    assert!(strings_agree(b"", b"Cs", false));
    assert_eq!(prints("$IFEQSS \"\" \"Cs\"\nyes\n$ENDIF"), "yes\n");
}

#[test]
fn cs_137_and_upper_cs_are_equal_under_si_not_ss() {
    assert!(strings_agree(b"cs-137", b"CS", true));
    assert!(!strings_agree(b"cs-137", b"CS", false));
    let both = "$IFEQSI \"cs-137\" \"CS\"\nsi\n$ENDIF\n$IFEQSS \"cs-137\" \"CS\"\nss\n$ENDIF";
    assert_eq!(prints(both), "si\n");
}

#[test]
fn bt_5_et_2_has_three_passes() {
    assert_eq!(prints("$BT 5\n{LOOP,1}\n$ET 2"), "1\n3\n5\n");
}

#[test]
fn bt_0_has_no_pass() {
    assert_eq!(prints("$BT 0\nx\n$ET\nend"), "end\n");
}

#[test]
fn at_linenum_59_np_2_stays_and_np_3_breaks() {
    let lines = "$BT 58\nx\n$ET\n";
    let stays = run(&format!("{lines}$NP 2"));
    assert_eq!((stays.end.number, stays.end.pages), (0, 1));
    let breaks = run(&format!("{lines}$NP 3"));
    assert_eq!((breaks.end.number, breaks.end.pages), (0, 2));
    assert!(breaks.text.ends_with("x\n\x0C"));
}

#[test]
fn sixty_lines_are_one_page_and_61_two() {
    let sixty = run("$BT 60\nx\n$ET");
    assert_eq!((sixty.end.pages, sixty.end.text_bytes), (1, 120));
    let more = run("$BT 61\nx\n$ET");
    assert_eq!((more.end.pages, more.end.text_bytes), (2, 123));
    assert!(more.text.ends_with("x\n\x0Cx\n"));
}

#[test]
fn the_sample_sheet() {
    let template = "$SEC A\n$SETE FV1 2\n$SETD FV1 3\n$IF IV1\nX\n$ELSE\nr={FV1,6.2}\n$ENDIF\n";
    let sheet = over(&[], template, "A");
    assert_eq!(sheet.text, "r=  0.67\n");
    let end = sheet.end;
    let closing = (
        end.number,
        end.line,
        end.pages,
        end.text_bytes,
        end.questions,
    );
    assert_eq!(closing, (0, 0, 1, 9, 0));
}

#[test]
fn slip_a_table_is_tested_at_bt_not_only_at_et() {
    let sheet = run("$SETE IV1 -5\n$BT IV1\n{P1,3}\n$ET\n{LOOP,1}");
    assert_eq!(sheet.text, "0\n");
    assert!(sheet.reads.is_empty());
}

#[test]
fn slip_no_cell_is_asked_for_on_a_skipped_line() {
    let sheet =
        run("$IF 0\n$IF P1\n{P2,3}\n$ENDIF\n$ELSE\n{P3,3}\n$ENDIF\n$IF 1\n$ELSE\n{P4,3}\n$ENDIF");
    assert_eq!(sheet.reads, [question(1, 1, 3, 0, 0)]);
    assert_eq!(sheet.text, "???\n");
}

#[test]
fn slip_a_heading_is_worked_out_when_printed_not_when_defined() {
    let sheet = run("$SETE IV1 1\n$PH1 {IV1,1} {P1,3}\n$SETE IV1 2\nx");
    assert_eq!(sheet.text, "2 ???\n\nx\n");
    assert_eq!(sheet.end.questions, 1);
    // A heading that is never printed asks nothing.
    assert_eq!(run("$PH1 {P1,3}").end.questions, 0);
}

#[test]
fn slip_a_products_range_is_checked_after_it_is_rounded() {
    let (a, b) = just_past_the_limit();
    assert_eq!(on_decimals(Operation::Multiply, a, b), Ok(LIMIT));
    let body = format!("$SETE FV1 {}\n$SETM FV1 {}\n{{FV1,17}}", text(a), text(b));
    assert_eq!(prints(&body), "2000000000.000000\n");
}

const LIMIT: i64 = 2_000_000_000_000_000;

/// Factors whose product lies past the limit by less than half a millionth.
fn just_past_the_limit() -> (i64, i64) {
    let exact = i128::from(LIMIT) * 1_000_000;
    for a in 1_000_001..2_000_000_i64 {
        let b = (exact / i128::from(a)) as i64 + 1;
        let past = i128::from(a) * i128::from(b) - exact;
        if past > 0 && past < 500_000 && b <= LIMIT {
            return (a, b);
        }
    }
    panic!("no such factors");
}

fn text(millionths: i64) -> String {
    format!("{}.{:06}", millionths / 1_000_000, millionths % 1_000_000)
}
