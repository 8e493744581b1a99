//! At least one test for each number a run can end with, and the line named.

mod common;
use common::*;
use second::{ask, check, put, remove, report};

/// The number and line of checks 2–6 for section A.
fn checked(template: &str) -> (u32, u32) {
    check(template.as_bytes(), b"A")
}

#[test]
fn n00_success_gives_line_0() {
    let end = run("x").end;
    let all = (
        end.number,
        end.line,
        end.pages,
        end.text_bytes,
        end.questions,
    );
    assert_eq!(all, (0, 0, 1, 2, 0));
}

#[test]
fn n01_the_store_breaks_its_form_or_is_longer_than_its_buffer() {
    let broken = over(b"?", "$SEC A\nx", "A");
    assert_eq!(broken.ends(), (1, 0));
    let mut text = [UNTOUCHED; 8];
    let end = report(b"$SEC A\nx", b"A", &[], 1, &mut text, &mut []);
    assert_eq!((end.number, end.line, end.pages), (1, 0, 0));
    assert_eq!(text, [UNTOUCHED; 8]);
}

#[test]
fn n02_a_template_too_long_names_line_0() {
    let fits = format!("$SEC A\n{}", "x\n".repeat(16_380) + "x");
    assert_eq!(fits.len(), 32_768);
    assert_eq!(checked(&fits), (0, 0));
    assert_eq!(checked(&(fits + "\n")), (2, 0));
}

#[test]
fn n02_a_byte_or_line_outside_its_limits_names_its_line() {
    for byte in [0x00, 0x09, 0x0C, 0x0D, 0x1F, 0x7F, 0x80, 0xFF] {
        let template = [b"$SEC A\nx\n".as_slice(), &[byte]].concat();
        assert_eq!(check(&template, b"A"), (2, 3));
    }
    assert_eq!(checked("$SEC A\n ~"), (0, 0));
    let longest = format!("$SEC A\n{}\n", "x".repeat(132));
    assert_eq!(checked(&longest), (0, 0));
    let longer = format!("$SEC A\n\n{}\n", "x".repeat(133));
    assert_eq!(checked(&longer), (2, 3));
    // A long remark is too long, too.
    assert_eq!(checked(&format!("$REM {}", "x".repeat(128))), (2, 1));
}

#[test]
fn n03_a_line_without_form_names_it() {
    assert_eq!(checked("$SEC A\nx\n$WHAT\n$NO"), (3, 3));
    assert_eq!(checked("$SEC A\n$SETE IV1 2000000001"), (3, 2));
    assert_eq!(checked("$SEC A\n$SETE IV1 -2000000000"), (0, 0));
    assert_eq!(checked("$SEC A\n$SETE FV1 -2000000000.000001"), (3, 2));
    assert_eq!(checked("$SEC A\n$SETE FV1 -2000000000.000000"), (0, 0));
}

#[test]
fn n03_fields_widen_a_line_past_132_bytes() {
    let body = "{1,32}{1,32}{1,32}{1,32}";
    assert_eq!(checked(&format!("$SEC A\n{body}{{1,4}}")), (0, 0));
    assert_eq!(checked(&format!("$SEC A\n{body}{{1,5}}")), (3, 2));
    assert_eq!(checked(&format!("$SEC A\n{body}xxxxx")), (3, 2));
    // The command word is included.
    assert_eq!(checked(&format!("$SEC A\n$PH {body}")), (0, 0));
    assert_eq!(checked(&format!("$SEC A\n$PH1 {body}")), (3, 2));
    // A remark is unread.
    assert_eq!(checked(&format!("$SEC A\n$REM {body}{body}")), (0, 0));
}

#[test]
fn n04_nesting_unmatched_or_crossed() {
    for line in ["$ELSE", "$ENDIF", "$ET"] {
        assert_eq!(checked(&format!("$SEC A\n{line}\nx")), (4, 2), "{line}");
    }
    assert_eq!(checked("$SEC A\n$IF 1\n$BT 1\n$ENDIF\n$ET"), (4, 4));
    assert_eq!(checked("$SEC A\n$IF 1\n$BT 1\n$ELSE\n$ET\n$ENDIF"), (4, 4));
    assert_eq!(checked("$SEC A\n$BT 1\n$IF 1\n$ET\n$ENDIF"), (4, 4));
    assert_eq!(checked("$SEC A\n$IF 1\n$ELSE\nx\n$ELSE\n$ENDIF"), (4, 5));
}

#[test]
fn n04_nesting_open_at_the_next_sec_or_the_last_line() {
    assert_eq!(checked("$SEC A\n$IF 1\nx\n$SEC B\n$ENDIF"), (4, 4));
    assert_eq!(checked("$SEC A\n$BT 1\nx\n$REM y\n"), (4, 4));
    assert_eq!(checked("$SEC A\n$IF 1"), (4, 2));
}

#[test]
fn n04_nesting_too_deep() {
    let tests = |n| format!("$SEC A\n{}{}", "$IF 1\n".repeat(n), "$ENDIF\n".repeat(n));
    assert_eq!(checked(&tests(10)), (0, 0));
    assert_eq!(checked(&tests(11)), (4, 12));
    let tables = |n| format!("$SEC A\n{}{}", "$BT 1\n".repeat(n), "$ET\n".repeat(n));
    assert_eq!(checked(&tables(5)), (0, 0));
    assert_eq!(checked(&tables(6)), (4, 7));
}

#[test]
fn n04_a_line_other_than_rem_has_no_sec_before_it() {
    assert_eq!(checked("$REM x\n$REM\n$SEC A"), (0, 0));
    for line in ["", "x", "$NP", "$IF 1", "$ENDIF"] {
        assert_eq!(checked(&format!("$REM\n{line}\n$SEC A")), (4, 2), "{line}");
    }
}

#[test]
fn n05_a_section_name_came_before() {
    assert_eq!(checked("$SEC A\n$SEC B\n$SEC A\n$SEC B"), (5, 3));
    // Names are compared by their first eight characters.
    assert_eq!(checked("$SEC ABCDEFGH1\n$SEC ABCDEFGH2"), (5, 2));
    assert_eq!(checked("$SEC A\n$SEC ABCDEFG1\n$SEC ABCDEFG2"), (0, 0));
}

#[test]
fn n06_the_section_asked_for_is_not_there() {
    assert_eq!(check(b"$SEC A", b"B"), (6, 0));
    assert_eq!(check(b"$SEC AB", b"A"), (6, 0));
    assert_eq!(check(b"$SEC A", b"AB"), (6, 0));
    assert_eq!(check(b"$SEC A", b"a"), (6, 0));
    assert_eq!(check(b"$REM", b""), (6, 0));
}

#[test]
fn n07_50_000_lines_were_executed_and_another_is_due() {
    // $SEC, $BT and then $ET again and again.
    let stopped = run("$BT 2000000000\n$ET\nx");
    assert_eq!(stopped.ends(), (7, 3));
    // 50,000 - 2 = 4 × 12,499 + 2 lines: the third $REM of a pass is due.
    let in_a_pass = run("$BT 2000000000\n$REM\n$REM\n$REM\n$ET");
    assert_eq!(in_a_pass.ends(), (7, 5));
}

#[test]
fn n08_an_index_is_outside_its_range() {
    assert_eq!(ends("$SETE IV1 1000\n{P1.IV1,3}"), (8, 3));
    assert_eq!(ends("$SETE IV1 -1\n{P1.0.IV1,3}"), (8, 3));
    assert_eq!(ends("$SETE IV1 1000\n{P1.IV1|ENTCNT,3}"), (8, 3));
    assert_eq!(
        ends("$BT 2000\n$ET 1000\n$BT 2000\n{P1.LOOP,1}\n$ET 999"),
        (8, 5)
    );
    assert_eq!(ends("$SETDS 0"), (8, 2));
    assert_eq!(ends("$SETDS 36"), (8, 2));
    assert_eq!(ends("$SETDS 35\n$SETDS 001"), (0, 0));
    assert_eq!(ends("$REC 1 P1 0 0 64"), (0, 0));
    assert_eq!(ends("$REC 1 P1 0 0 65"), (8, 2));
    assert_eq!(ends("$SETE IV1 -1\n$TBL 1 P1 0 0 IV1"), (8, 3));
    assert_eq!(ends("$REC 1 P1 990 0 10"), (0, 0));
    assert_eq!(ends("$REC 1 P1 990 0 11"), (8, 2));
    assert_eq!(ends("$REC 1 P1 0 999 10"), (0, 0));
    assert_eq!(ends("$TBL 1 P1 999 990 10"), (0, 0));
    assert_eq!(ends("$TBL 1 P1 0 990 11"), (8, 2));
}

#[test]
fn n09_the_read_list_has_no_place() {
    let full = lent(b"$SEC A\n{P1,3}{P2,3}\n{P3,3}", b"A", &[], 100, 2);
    assert_eq!(full.ends(), (9, 3));
    assert_eq!(full.text, "??????\n");
    assert_eq!(
        full.reads,
        [question(1, 1, 1, 0, 0), question(1, 1, 2, 0, 0)]
    );
    assert_eq!(
        lent(b"$SEC A\n{P1|RECCNT,3}", b"A", &[], 9, 0).ends(),
        (9, 2)
    );
}

#[test]
fn n10_a_commands_argument_is_missing() {
    for line in [
        "$SETE IV1 P1",
        "$SETD FV1 R1",
        "$SETE SV1 T10",
        "$IF P1\n$ENDIF",
        "$IFNOT P1\n$ENDIF",
        "$IFGE 1 P1\n$ENDIF",
        "$IFEQSI P1 \"\"\n$ENDIF",
        "$BT P1\n$ET",
        "$NP P1",
    ] {
        assert_eq!(ends(line), (10, 2), "{line}");
    }
    assert_eq!(ends("$BT 2\nx\n$ET P1"), (10, 4));
}

#[test]
fn n11_a_value_has_the_wrong_kind() {
    for line in [
        "$SETE IV1 1.5",
        "$SETE IV1 \"1\"",
        "$SETA FV1 \"1\"",
        "$SETE SV1 1",
        "$IF \"x\"\n$ENDIF",
        "$IFEQ 1 \"x\"\n$ENDIF",
        "$IFEQSS 1 \"x\"\n$ENDIF",
        "$BT \"x\"\n$ET",
        "$NP 1.5",
        "{\"x\"|ABS,3}",
        "{1|LEN,3}",
    ] {
        assert_eq!(ends(line), (11, 2), "{line}");
    }
    assert_eq!(ends("$BT 1\n$ET 1.0"), (11, 3));
}

#[test]
fn n12_the_divisor_is_zero() {
    assert_eq!(ends("$SETD IV1 0"), (12, 2));
    assert_eq!(ends("$SETD FV1 0.0"), (12, 2));
    assert_eq!(ends("$SETE FV1 1\n$SETD FV1 IV1"), (12, 3));
}

#[test]
fn n13_a_result_is_out_of_range_or_k_is_below_1() {
    assert_eq!(
        ends("$SETE IV1 2000000000\n$SETA IV1 0\n$SETA IV1 1"),
        (13, 4)
    );
    assert_eq!(ends("$SETE FV1 -2000000000\n$SETS FV1 0.000001"), (13, 3));
    assert_eq!(ends("$SETE FV1 2000000000\n$SETD FV1 0.999999"), (13, 3));
    assert_eq!(ends("$BT 1\nx\n$ET 0"), (13, 4));
    assert_eq!(ends("$BT 1\nx\n$ET -1"), (13, 4));
}

#[test]
fn n14_the_next_line_or_a_form_feed_does_not_fit() {
    let at = |bytes| lent(b"$SEC A\nab\ncd\n$NP\n$NP", b"A", &[], bytes, 0);
    assert_eq!(at(8).ends(), (0, 0));
    assert_eq!((at(7).ends(), at(7).end.pages), ((14, 5), 2));
    assert_eq!((at(6).ends(), at(6).end.pages), ((14, 4), 1));
    assert_eq!((at(5).ends(), at(5).text), ((14, 3), "ab\n".to_string()));
    assert_eq!((at(0).ends(), at(0).end.pages), ((14, 2), 1));
}

#[test]
fn n15_a_key_kind_unused_number_or_value_breaks_a_limit() {
    let empty: [u8; 0] = [];
    for question in [
        question(0, 1, 1, 0, 0),
        question(4, 1, 1, 0, 0),
        question(1, 0, 1, 0, 0),
        question(1, 36, 1, 0, 0),
        question(1, 257, 1, 0, 0),
        question(1, 1, 0, 0, 0),
        question(1, 1, 65_536, 0, 0),
        question(1, 1, 65_537, 0, 0),
        question(1, 1, 1, 1_000, 0),
        question(1, 1, 1, 0, 1_000),
        question(2, 1, 1, 1, 0),
        question(2, 1, 1, 0, 1),
        question(3, 1, 1, 1_000, 0),
        question(3, 1, 1, 0, 1),
        question(1, u32::MAX, u32::MAX, u32::MAX, u32::MAX),
    ] {
        assert_eq!(ask(&empty, 0, question).number, 15, "{question:?}");
    }
    let mut store = [0; 100];
    assert_eq!(put(&mut store, 0, b"").number, 15);
    assert_eq!(remove(&mut store, 0, &key(0, 1, 0, 0)).number, 15);
}

#[test]
fn n16_a_put_would_pass_the_buffer_or_65_536_bytes() {
    let mut small = [0; 11];
    assert_eq!(put(&mut small, 0, &integer((1, 0, 0), 1)).number, 16);
    // 65,536 = 2,621 × 25 + 11: even an integer more is too much.
    let cells = (0..2_621).flat_map(|n| string((1, n / 1_000, n % 1_000), "x"));
    let mut large: Vec<u8> = cells.collect();
    let length = large.len();
    large.resize(70_000, 0);
    let more = put(&mut large, length, &integer((2, 0, 0), 1));
    assert_eq!((more.number, more.length), (16, length));
    // Replacing still works, and shortening makes space.
    let shorter = put(&mut large, length, &integer((1, 0, 0), 1));
    assert_eq!((shorter.number, shorter.length), (0, length - 13));
    let added = put(&mut large, shorter.length, &integer((2, 0, 0), 1));
    assert_eq!((added.number, added.length), (0, length - 1));
}

#[test]
fn n17_the_key_to_remove_has_no_cell() {
    let mut cells = store(&[integer((1, 0, 0), 1)]);
    let edited = remove(&mut cells, 12, &key(1, 1, 0, 1));
    assert_eq!((edited.number, edited.length), (17, 12));
}
