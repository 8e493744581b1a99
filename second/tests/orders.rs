//! Which number comes first where several could.

mod common;
use common::*;
use second::{ask, put, remove};

/// A run with so many places in the read list and bytes of text.
fn lent_to(body: &str, bytes: usize, places: usize) -> Run {
    let template = format!("$SEC A\n{body}");
    lent(template.as_bytes(), b"A", &[], bytes, places)
}

#[test]
fn n8_and_9_come_argument_by_argument_from_the_left() {
    // 9 on the left before 8 on the right, and the other way round.
    assert_eq!(
        lent_to("$SETE IV1 -1\n{P1,1}{P1.IV1,1}", 9, 0).ends(),
        (9, 3)
    );
    assert_eq!(
        lent_to("$SETE IV1 -1\n{P1.IV1,1}{P1,1}", 9, 0).ends(),
        (8, 3)
    );
    assert_eq!(
        lent_to("$SETE IV1 -1\n$IFEQ P1 P1.IV1\n$ENDIF", 9, 0).ends(),
        (9, 3)
    );
    // Within one argument 8 comes before 9.
    assert_eq!(lent_to("$SETE IV1 -1\n{P1.1.IV1,1}", 9, 0).ends(), (8, 3));
    assert_eq!(lent_to("$REC 1 P1 999 0 2", 9, 0).ends(), (8, 2));
}

#[test]
fn n8_and_9_come_before_10_and_11() {
    let body = "$SETE IV1 -1\n$IFEQ R1 P1.IV1\n$ENDIF";
    assert_eq!(lent_to(body, 9, 9).ends(), (8, 3));
    assert_eq!(lent_to("$IFEQ \"x\" P1\n$ENDIF", 9, 0).ends(), (9, 2));
    assert_eq!(lent_to("{\"x\"|ABS,1}{P1,1}", 9, 0).ends(), (9, 2));
}

#[test]
fn n10_comes_before_11() {
    assert_eq!(ends("$IFEQ \"x\" P1\n$ENDIF"), (10, 2));
    assert_eq!(ends("$IFEQSS 1 R1\n$ENDIF"), (10, 2));
    assert_eq!(ends("$IFEQ \"x\"|ABS P1|ABS\n$ENDIF"), (10, 2));
}

#[test]
fn n11_comes_before_12_and_13() {
    assert_eq!(ends("$SETD IV1 0.0"), (11, 2));
    assert_eq!(ends("$BT 1\n$ET 0.5"), (11, 3));
    assert_eq!(ends("$SETE IV1 2000000000\n$SETM IV1 2.0"), (11, 3));
}

#[test]
fn n12_comes_before_13() {
    assert_eq!(ends("$SETE FV1 2000000000\n$SETD FV1 0"), (12, 3));
}

#[test]
fn n11_comes_before_14() {
    assert_eq!(lent_to("{1|LEN,9}", 0, 0).ends(), (11, 2));
    assert_eq!(lent_to("{P1,9}", 0, 1).ends(), (14, 2));
    assert_eq!(lent_to("{P1,9}", 0, 1).end.questions, 1);
    assert_eq!(lent_to("$NP 1.0", 0, 0).ends(), (11, 2));
}

#[test]
fn n7_comes_before_the_due_line_does_anything() {
    let body = "$BT 24999\n$REM\n$ET\n{SV1|ABS,1}";
    // $SEC, $BT and 24,999 passes of two lines are 50,000.
    assert_eq!(ends(body), (7, 5));
}

#[test]
fn the_steps_before_a_text_line_stand_when_a_later_one_is_refused() {
    let body = "$PH1 {P1,3}\n{P2.IV1,1}{IV1|LEN,1}";
    let sheet = run(body);
    assert_eq!(sheet.ends(), (11, 3));
    assert_eq!((sheet.text.as_str(), sheet.end.questions), ("???\n\n", 2));
}

#[test]
fn checks_go_2_3_4_5_6_each_over_the_whole_template() {
    let fault4 = "x\n";
    let fault5 = "$SEC A\n$SEC A\n";
    let fault3 = "$X\n";
    let fault2 = "\x7F\n";
    let ends = |template: String| over(&[], &template, "B").ends();
    assert_eq!(ends(format!("{fault4}{fault5}{fault3}{fault2}")), (2, 5));
    assert_eq!(ends(format!("{fault4}{fault5}{fault3}")), (3, 4));
    assert_eq!(ends(format!("{fault4}{fault5}")), (4, 1));
    assert_eq!(ends(format!("{fault5}$IF 1")), (4, 3));
    assert_eq!(ends(fault5.to_string()), (5, 2));
    assert_eq!(ends("$SEC A".to_string()), (6, 0));
}

#[test]
fn n1_comes_before_the_template() {
    assert_eq!(over(b"?", "\x7F", "A").ends(), (1, 0));
}

#[test]
fn ask_put_and_remove_check_1_15_16_17_in_order() {
    let bad_question = question(9, 0, 0, 0, 0);
    assert_eq!(ask(b"?", 1, bad_question).number, 1);
    assert_eq!(ask(b"", 0, bad_question).number, 15);
    assert_eq!(put(&mut [b'?'], 1, b"?").number, 1);
    // No cell in form and no space: 15. In form and no space: 16.
    assert_eq!(put(&mut [], 0, &[0; 100]).number, 15);
    assert_eq!(put(&mut [], 0, &integer((1, 0, 0), 1)).number, 16);
    assert_eq!(remove(&mut [b'?'], 1, b"?").number, 1);
    assert_eq!(remove(&mut [], 0, &key(36, 1, 0, 0)).number, 15);
    assert_eq!(remove(&mut [], 0, &key(35, 1, 0, 0)).number, 17);
}
