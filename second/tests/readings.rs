//! The paper's points that can be read in two ways, as decided.

mod common;
use common::*;
use second::check;

#[test]
fn reading_01_each_element_of_rec_and_tbl_has_its_own_value_or_is_missing() {
    let cells = [
        integer((1, 1, 0), 1),
        integer((1, 3, 0), 3),
        integer((1, 1, 2), 2),
    ];
    let sheet = with(
        &cells,
        "$REC 1 P1 1 0 3\n$TBL 1 P1 1 0 3\n$BT 3\n{R1,3}{T1,3}\n$ET",
    );
    assert_eq!(sheet.text, "  1  1\n??????\n  3  2\n");
}

#[test]
fn reading_02_r_and_t_stand_wherever_a_value_is_taken() {
    let cells = [integer((1, 0, 0), 4), string((2, 0, 0), "Cs-137")];
    let body = "$REC 1 P1 0 0 1\n$TBL 1 P2 0 0 1\n$BT 1\n$SETE IV1 R1\n$SETE SV1 T1\n\
        $IFEQSS T1 \"Cs\"\n$IFEQ R1 4\n{IV1,1}{SV1,6}\n$ENDIF\n$ENDIF\n$ET R1";
    let sheet = with(&cells, body);
    assert_eq!((sheet.ends(), sheet.text.as_str()), ((0, 0), "4Cs-137\n"));
}

#[test]
fn reading_03_np_itself_never_prints_headings() {
    assert_eq!(prints("$PH1 h\n$NP\n$NP"), "\x0C\x0C");
    assert_eq!(prints("$PH1 h\n$NP\n$NP\nx"), "\x0C\x0Ch\n\nx\n");
}

#[test]
fn reading_04_break_headings_blank_line_and_text_are_worked_out_in_turn() {
    let body = "$BT 60\nx\n$ET\n$PH1 {PAGENUM,1}{LINENUM,2}{P1,3}\n$PH2 {LINENUM,2}{P2,3}\n\
        {PAGENUM,1}{LINENUM,2}{P3,3}";
    let sheet = run(body);
    assert!(sheet.text.ends_with("x\n\x0C2 1???\n 2???\n\n2 4???\n"));
    assert_eq!(sheet.reads, [1, 2, 3].map(|p| question(1, 1, p, 0, 0)));
}

#[test]
fn reading_05_a_blank_heading_is_defined_and_names_its_latest_ph_line() {
    let template = b"$SEC A\n$PH1 old\n$PH3 \n$PH1 \nx";
    let at = |bytes| lent(template, b"A", &[], bytes, 0).ends();
    assert_eq!(at(0), (14, 4)); // Heading 1, as last defined.
    assert_eq!(at(1), (14, 5)); // Heading 2, undefined.
    assert_eq!(at(2), (14, 3)); // Heading 3, defined blank.
    assert_eq!(at(3), (14, 5)); // The closing blank line.
}

#[test]
fn reading_06_what_is_executed_and_counted() {
    // With $SEC, $BT and the lines of each pass counted, a body has exactly
    // 50,000 lines; one more is then due.
    let counted = |pass: &str, lines_a_pass: usize| {
        let passes = (50_000 - 2) / lines_a_pass;
        let rest = 50_000 - 2 - passes * lines_a_pass;
        let body = format!("$BT {passes}\n{pass}$ET\n{}", "$REM\n".repeat(rest));
        let due = body.lines().count() as u32 + 2;
        assert_eq!(ends(&body), (0, 0), "{pass}");
        assert_eq!(ends(&format!("{body}$REM")), (7, due), "{pass}");
    };
    counted("", 1);
    counted("$REM\n", 2);
    counted("x\n", 2);
    counted("$IF 1\n$ENDIF\n", 3); // $ENDIF is reached.
    counted("$IF 1\n$ELSE\n$REM\n$ENDIF\n", 3); // $ELSE is reached, $ENDIF jumped over.
    counted("$IF 0\n$ELSE\n$REM\n$ENDIF\n", 4); // $ELSE is jumped over.
    counted("$IF 0\n$REM\n$ENDIF\n", 2); // $ENDIF is jumped over.
    counted("$BT 0\n$REM\n$ET\n", 2); // $ET of a skipped table.
    counted("$BT 2\n$ET\n", 4); // $BT once, $ET twice.
    counted("$PH1 h\n$NOFF\nx\n", 4); // Headings printed don't count.
}

#[test]
fn reading_07_exactly_50_000_lines_and_nothing_due_is_success() {
    // $SEC, $BT and 49,998 times $ET.
    assert_eq!(ends("$BT 49998\n$ET"), (0, 0));
    assert_eq!(ends("$BT 49999\n$ET"), (7, 3));
    // The next section is not due.
    let template = "$SEC A\n$BT 49998\n$ET\n$SEC B\nx";
    assert_eq!(over(&[], template, "A").ends(), (0, 0));
    assert_eq!(over(&[], template, "").ends(), (7, 4));
    // A jump to the end leaves nothing due.
    assert_eq!(ends("$BT 49997\n$ET\n$IF 0\nx\n$ENDIF"), (0, 0));
}

#[test]
fn reading_08_each_number_over_the_whole_line_in_turn() {
    assert_eq!(ends("$IFEQSS \"a\"|ABS P9\n$ENDIF"), (10, 2));
    let template = b"$SEC A\n$SETE IV1 1000\n{P1,3}{P1.IV1,3}";
    let wide = lent(template, b"A", &[], 99, 99);
    assert_eq!((wide.ends(), wide.end.questions), ((8, 3), 1));
    let full = lent(template, b"A", &[], 99, 0);
    assert_eq!((full.ends(), full.end.questions), ((9, 3), 0));
}

#[test]
fn reading_09_a_last_element_past_999_is_found_before_any_question() {
    let past = run("$REC 1 P1 998 0 3");
    assert_eq!((past.ends(), past.end.questions), ((8, 2), 0));
    assert_eq!(
        run("$REC 1 P1 999 999 0\n$TBL 1 P1 999 999 0").ends(),
        (0, 0)
    );
    let full = lent(b"$SEC A\n$TBL 1 P1 7 5 3", b"A", &[], 9, 2);
    assert_eq!(full.ends(), (9, 2));
    assert_eq!(
        full.reads,
        [question(1, 1, 1, 7, 5), question(1, 1, 1, 7, 6)]
    );
}

#[test]
fn reading_10_missing_behind_any_filter_stays_missing() {
    assert_eq!(
        prints("{P1|ABS,3}{P1|INT,3}{P1|UPPER,3}{R1|LEN,3}"),
        "????????????\n"
    );
    for filter in ["ABS", "INT", "UPPER", "LEN"] {
        assert_eq!(ends(&format!("$SETE IV1 P1|{filter}")), (10, 2), "{filter}");
    }
}

#[test]
fn reading_11_indexes_variables_and_parameters_take_no_filter() {
    for line in [
        "$SETDS IV1|ABS",
        "$SETE IV1|ABS 1",
        "$REC 1 P1|RECCNT 0 0 1",
        "$REC 1 P1 IV1|ABS 0 1",
        "$REC 1 P1 0 LOOP|INT 1",
        "$TBL 1 P1 0 0 IV1|ABS",
        "{P1.IV1|ABS.1,3}",
        "{P1.0|RECCNT,3}",
        "{P1.1.1|RECCNT,3}",
        "{P1|ENTCNT,3}",
        "{P1.1.1|ENTCNT,3}",
    ] {
        assert_eq!(ends(line), (3, 2), "{line}");
    }
}

#[test]
fn reading_12_reccnt_and_entcnt_are_highest_numbers_not_counts() {
    let cells = [integer((1, 2, 900), 1), integer((1, 999, 0), 1)];
    let sheet = with(&cells, "{P1|RECCNT,3} {P1.2|ENTCNT,3} {P1.999|ENTCNT,1}");
    assert_eq!(sheet.text, "999 900 0\n");
}

#[test]
fn reading_13_order_1_then_2_to_5_then_6_and_too_long_is_line_0() {
    let long = "\x7F\n".repeat(20_000);
    assert_eq!(check(long.as_bytes(), b"A"), (2, 0));
    assert_eq!(over(b"?", &long, "A").ends(), (1, 0));
    assert_eq!(check(b"$SEC A\n$SEC A\n$ELSE\n$X\n\x00", b"B"), (2, 5));
    assert_eq!(check(b"$SEC A\n$SEC A\n$ELSE\n$X", b"B"), (3, 4));
    assert_eq!(check(b"$SEC A\n$SEC A\n$ELSE", b"B"), (4, 3));
    assert_eq!(check(b"$SEC A\n$SEC A", b"B"), (5, 2));
    assert_eq!(check(b"$SEC A", b"B"), (6, 0));
}

#[test]
fn reading_14_loop_in_et_is_this_tables_counter_in_bt_the_surrounding_ones() {
    assert_eq!(prints("$BT 9\n{LOOP,1}\n$ET LOOP"), "1\n2\n4\n8\n");
    assert_eq!(prints("$BT 2\n$BT LOOP\nx\n$ET\n-\n$ET"), "x\n-\nx\nx\n-\n");
    assert_eq!(prints("$BT LOOP\nx\n$ET"), "");
}

#[test]
fn reading_15_a_counter_past_2_000_000_000_ends_its_table() {
    let body = "$BT 2000000000\n{LOOP,10}\n$ET 1999999999";
    assert_eq!(prints(body), "         1\n2000000000\n");
    assert_eq!(prints("$BT 2000000000\nx\n$ET 2000000000"), "x\n");
}

#[test]
fn reading_16_form_feed_and_line_fit_each_by_itself() {
    let template = b"$SEC A\n$NP\nx";
    let at = |bytes| lent(template, b"A", &[], bytes, 0);
    assert_eq!((at(0).ends(), at(0).end.pages), ((14, 2), 1));
    assert_eq!((at(1).ends(), at(1).end.pages), ((14, 3), 2));
    assert_eq!(at(1).text, "\x0C");
    let noff = lent(b"$SEC A\n$NOFF\n$NP\n$NP", b"A", &[], 0, 0);
    assert_eq!((noff.ends(), noff.end.pages), ((0, 0), 3));
}

#[test]
fn reading_17_a_headings_width_counts_its_word_and_the_space() {
    let heading =
        |word: &str, text: usize| format!("{word} {{1,32}}{{1,32}}{{1,32}}{}", "x".repeat(text));
    assert_eq!(ends(&heading("$PH1", 31)), (0, 0));
    assert_eq!(ends(&heading("$PH1", 32)), (3, 2));
    assert_eq!(ends(&heading("$PH", 32)), (0, 0));
    assert_eq!(ends(&heading("$PH", 33)), (3, 2));
    assert_eq!(prints("$PH1  \nx"), " \n\nx\n");
}

#[test]
fn reading_18_the_callers_name_is_compared_by_its_first_eight_bytes() {
    assert_eq!(check(b"$SEC ABCDEFGH", b"ABCDEFGH\xFF\x00 and on"), (0, 0));
    assert_eq!(check(b"$SEC ABCDEFGHIJ", b"ABCDEFGH"), (0, 0));
    assert_eq!(check(b"$SEC ABCDEFGHIJ", b"ABCDEFG"), (6, 0));
    assert_eq!(check(b"$SEC ABCDEFG", b"ABCDEFG\x00"), (6, 0));
    assert_eq!(check(b"$SEC A", b"\x00\xFF"), (6, 0));
}

#[test]
fn reading_19_ten_tests_and_five_tables_may_be_open_together() {
    let body = format!(
        "{}{}x\n{}{}",
        "$BT 1\n".repeat(5),
        "$IF 0\n$ELSE\n".repeat(10),
        "$ENDIF\n".repeat(10),
        "$ET\n".repeat(5)
    );
    assert_eq!(prints(&body), "x\n");
    // A test in its $ELSE part is still open.
    let deep = format!("{}$IF 1\n", "$IF 0\n$ELSE\n".repeat(10));
    assert_eq!(ends(&deep), (4, 22));
}

#[test]
fn reading_20_a_whole_decimal_is_still_a_decimal() {
    assert_eq!(ends("$SETE IV1 2.0"), (11, 2));
    assert_eq!(ends("$BT 1.0\n$ET"), (11, 2));
    assert_eq!(ends("$NP FV1"), (11, 2));
}

#[test]
fn reading_21_missing_in_a_field_prints_question_marks() {
    assert_eq!(prints("$PH1 {P1,4}\n{P1.1,4}{R1,2}"), "??? \n\n??? ??\n");
}

#[test]
fn reading_23_widths_and_variable_numbers_have_no_leading_zeros() {
    for line in [
        "{1,05}",
        "{IV01,5}",
        "{FV01,5}",
        "{SV01,5}",
        "{R01,5}",
        "{T01,5}",
        "{P01,5}",
        "{P1.IV01,5}",
        "$REC 01 P1 0 0 1",
        "$REC 1 P01 0 0 1",
    ] {
        assert_eq!(ends(line), (3, 2), "{line}");
    }
    assert_eq!(
        prints("$REC 1 P1 001 00 000\n$SETDS 01\n{0007,1}{01.5,3.1}{P1.01.002,3}"),
        "71.5???\n"
    );
}

#[test]
fn reading_24_the_empty_name_with_no_sec_is_6() {
    assert_eq!(check(b"", b""), (6, 0));
    assert_eq!(check(b"", b"A"), (6, 0));
    assert_eq!(check(b"$REM x\n", b""), (6, 0));
}
