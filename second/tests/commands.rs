//! Each command, argument and filter at work.

mod common;
use common::*;

/// The body between `$IF...` and `$ENDIF` is reached.
fn holds(test: &str) -> bool {
    prints(&format!("{test}\ny\n$ELSE\nn\n$ENDIF")) == "y\n"
}

#[test]
fn sec_selects_one_section_or_all() {
    let template = "$REM\n$SEC A\na\n$SEC B\nb\n$SEC C\nc";
    assert_eq!(over(&[], template, "A").text, "a\n");
    assert_eq!(over(&[], template, "B").text, "b\n");
    assert_eq!(over(&[], template, "C").text, "c\n");
    assert_eq!(over(&[], template, "").text, "a\nb\nc\n");
}

#[test]
fn sec_sets_variables_arrays_headings_and_noff_back() {
    let cells = store(&[
        integer((1, 0, 0), 5),
        in_datasource(2, integer((1, 0, 0), 7)),
    ]);
    let template = "$SEC A\n$SETDS 2\n$SETE IV1 1\n$SETE FV1 1\n$SETE SV1 \"s\"\n$REC 1 P1 0 0 1\n\
        $TBL 2 P1 0 0 1\n$PH1 h\n$NOFF\nx\n\
        $SEC B\n$BT 1\n{IV1,1}{FV1,4.2}{SV1,1}{R1,3}{T2,3}{P1,1}{LINENUM,1}\n$ET\n$NP\ny";
    let sheet = over(&cells, template, "");
    assert_eq!(sheet.ends(), (0, 0));
    // Page and datasource go on; the heading is gone, the form feed is back.
    assert_eq!(sheet.text, "h\n\nx\n00.00 ??????74\n\x0Cy\n");
    assert_eq!(sheet.end.pages, 2);
}

#[test]
fn sete_sets_each_kind_of_variable() {
    let body = "$SETE IV1 -5\n$SETE FV1 2\n$SETE FV2 -0.5\n$SETE SV99 \"0123456789abcdef\"\n\
        {IV1,2} {FV1,8} {FV2,4.1} {SV99,16}";
    assert_eq!(prints(body), "-5 2.000000 -0.5 0123456789abcdef\n");
}

#[test]
fn seta_sets_setm_setd_change_iv() {
    let body = "$SETE IV1 10\n$SETA IV1 5\n{IV1,3}\n$SETS IV1 40\n{IV1,3}\n$SETM IV1 3\n{IV1,3}\n\
        $SETD IV1 7\n{IV1,3}";
    assert_eq!(prints(body), " 15\n-25\n-75\n-10\n");
}

#[test]
fn seta_sets_setm_setd_change_fv() {
    let body = "$SETE FV1 10\n$SETA FV1 0.5\n{FV1,6.3}\n$SETS FV1 11\n{FV1,6.3}\n\
        $SETM FV1 3\n{FV1,6.3}\n$SETD FV1 -7.0\n{FV1,8}";
    assert_eq!(prints(body), "10.500\n-0.500\n-1.500\n0.214286\n");
}

#[test]
fn if_and_ifnot_take_one_number() {
    assert!(holds("$IF 1") && holds("$IF -0.000001") && !holds("$IF 0") && !holds("$IF 0.0"));
    assert!(holds("$IFNOT 0") && holds("$IFNOT 0.0") && !holds("$IFNOT -1"));
}

#[test]
fn number_tests_compare_by_value() {
    for (word, less, equal, greater) in [
        ("$IFEQ", false, true, false),
        ("$IFNE", true, false, true),
        ("$IFLT", true, false, false),
        ("$IFLE", true, true, false),
        ("$IFGT", false, false, true),
        ("$IFGE", false, true, true),
    ] {
        assert_eq!(holds(&format!("{word} 1 1.000001")), less, "{word}");
        assert_eq!(holds(&format!("{word} 1.0 1")), equal, "{word}");
        assert_eq!(holds(&format!("{word} 1 -2")), greater, "{word}");
    }
}

#[test]
fn string_tests_compare_up_to_the_shorter_length() {
    assert!(holds("$IFEQSS \"Cs-137\" \"Cs\"") && holds("$IFEQSS \"Cs\" \"Cs-137\""));
    assert!(holds("$IFEQSS \"Cs\" \"\"") && !holds("$IFEQSS \"Cs\" \"Co\""));
    assert!(holds("$IFEQSI \"CS\" \"cs-137\"") && !holds("$IFEQSI \"Cs\" \"Co\""));
    // Only letters have a case: 0x40 and 0x60, 0x5B and 0x7B differ.
    assert!(!holds("$IFEQSI \"@\" \"`\"") && !holds("$IFEQSI \"[\" \"{\""));
}

#[test]
fn failed_tests_continue_behind_their_own_else_or_endif() {
    let body = "$IF 0\n$IF 1\na\n$ELSE\nb\n$ENDIF\n$ELSE\nc\n$IF 0\nd\n$ENDIF\ne\n$ENDIF\nf";
    assert_eq!(prints(body), "c\ne\nf\n");
    assert_eq!(
        prints("$IF 1\na\n$IF 1\nb\n$ELSE\nc\n$ENDIF\n$ELSE\nd\n$ENDIF\ne"),
        "a\nb\ne\n"
    );
}

#[test]
fn bt_and_et_count_nested_tables() {
    let body = "$BT 2\n$BT LOOP\n{LOOP,1}\n$ET\n-{LOOP,1}\n$ET\n{LOOP,1}";
    assert_eq!(prints(body), "1\n-1\n1\n2\n-2\n0\n");
}

#[test]
fn bt_reads_n_once() {
    assert_eq!(
        prints("$SETE IV1 2\n$BT IV1\n$SETA IV1 5\n{IV1,2}\n$ET"),
        " 7\n12\n"
    );
}

#[test]
fn rec_fills_from_records_and_tbl_from_entries() {
    let cells = [
        integer((7, 3, 2), 32),
        string((7, 4, 2), "Co"),
        decimal((7, 3, 3), 1_500_000),
    ];
    let sheet = with(
        &cells,
        "$REC 1 P7 3 2 3\n$TBL 1 P7 3 2 2\n$BT 3\n{R1,3}|{T1,4.1}\n$ET\n{R1,3}",
    );
    assert_eq!(sheet.text, " 32|32.0\nCo | 1.5\n???|??? \n???\n");
    let asked = [(3, 2), (4, 2), (5, 2), (3, 2), (3, 3)];
    assert_eq!(sheet.reads, asked.map(|(r, e)| question(1, 1, 7, r, e)));
}

#[test]
fn rec_with_count_0_clears_the_array() {
    let cells = [integer((1, 0, 0), 5)];
    let sheet = with(
        &cells,
        "$REC 1 P1 0 0 1\n$REC 1 P1 0 0 0\n$BT 1\n{R1,3}\n$ET",
    );
    assert_eq!((sheet.text.as_str(), sheet.end.questions), ("???\n", 1));
}

#[test]
fn setds_selects_the_datasource_cells_ask_in() {
    let cells = [
        integer((1, 0, 0), 1),
        in_datasource(35, integer((1, 0, 0), 2)),
    ];
    let sheet = with(
        &cells,
        "{P1,1}\n$SETE IV1 35\n$SETDS IV1\n{P1,1}\n$SETDS 2\n{P1,3}",
    );
    assert_eq!(sheet.text, "1\n2\n???\n");
    let sources: Vec<u32> = sheet.reads.iter().map(|q| q.datasource).collect();
    assert_eq!(sources, [1, 35, 2]);
}

#[test]
fn setds_takes_loop() {
    let sheet = run("$BT 3\n$SETDS LOOP\n{P1|RECCNT,1}\n$ET");
    let sources: Vec<u32> = sheet.reads.iter().map(|q| q.datasource).collect();
    assert_eq!(sources, [1, 2, 3]);
}

#[test]
fn noff_keeps_breaks_without_their_mark() {
    let sheet = run("$NOFF\n$BT 61\nx\n$ET\n$NP\n{PAGENUM,1}{LINENUM,1}");
    assert_eq!(sheet.text, format!("{}31\n", "x\n".repeat(61)));
    assert_eq!(sheet.end.pages, 3);
}

#[test]
fn rem_does_nothing() {
    assert_eq!(prints("$REM\n$REM {P1,3}\nx"), "x\n");
}

#[test]
fn ph_defines_redefines_and_undefines() {
    assert_eq!(prints("$PH a\n$PH1 b\nx"), "b\n\nx\n");
    assert_eq!(prints("$PH2 b\n$PH1\n$PH2\nx"), "x\n");
    assert_eq!(prints("$PH1 \nx"), "\n\nx\n");
    assert_eq!(prints("$PH3 c\nx"), "\n\nc\n\nx\n");
}

#[test]
fn pagenum_and_linenum_are_integers() {
    let body = "a\n$SETE IV1 LINENUM\n$NP\n$SETA IV1 PAGENUM\n{IV1,1}{PAGENUM,1}{LINENUM,1}";
    assert_eq!(prints(body), "a\n\x0C421\n");
}

#[test]
fn cells_give_each_kind_and_absent_parts_are_0() {
    let cells = [
        integer((9, 0, 0), -3),
        decimal((9, 1, 0), 2_500_000),
        string((9, 1, 2), "Na-22"),
    ];
    let sheet = with(
        &cells,
        "$SETE IV1 1\n$BT 2\n{P9,3}{P9.IV1,4.1} {P9.01.LOOP,5}\n$ET",
    );
    assert_eq!(sheet.text, " -3 2.5 ???  \n -3 2.5 Na-22\n");
    assert_eq!(sheet.reads[0], question(1, 1, 9, 0, 0));
    assert_eq!(sheet.reads[1], question(1, 1, 9, 1, 0));
    assert_eq!(sheet.reads[5], question(1, 1, 9, 1, 2));
}

#[test]
fn filter_abs_keeps_the_kind() {
    assert_eq!(
        prints("{-5|ABS,3} {-0.5|ABS,8} {7|ABS,1}"),
        "  5 0.500000 7\n"
    );
    assert_eq!(prints("$SETE IV1 -2\n$SETA IV1 IV1|ABS\n{IV1,1}"), "0\n");
    assert_eq!(ends("$SETE IV1 -1.0|ABS"), (11, 2));
}

#[test]
fn filter_int_goes_toward_zero() {
    assert_eq!(
        prints("{-1.999999|INT,3} {1.9|INT,3.1} {5|INT,1}"),
        " -1 1.0 5\n"
    );
    assert_eq!(prints("$SETE IV1 2.5|INT\n{IV1,1}"), "2\n");
}

#[test]
fn filter_upper_and_len_work_on_strings() {
    assert_eq!(
        prints("{\"az-`{~\"|UPPER,6} {\"\"|LEN,1} {\"a b\"|LEN,1}"),
        "AZ-`{~ 0 3\n"
    );
    assert_eq!(ends("{IV1|UPPER,3}"), (11, 2));
    assert_eq!(ends("{FV1|LEN,3}"), (11, 2));
    assert_eq!(ends("{SV1|INT,3}"), (11, 2));
}

#[test]
fn filters_reccnt_and_entcnt_ask_kinds_2_and_3() {
    let cells = [
        integer((5, 2, 9), 1),
        integer((5, 7, 3), 1),
        integer((6, 8, 8), 1),
        in_datasource(2, integer((5, 9, 9), 1)),
    ];
    let sheet = with(
        &cells,
        "{P5|RECCNT,1}{P5.2|ENTCNT,1}{P5.3|ENTCNT,1}{P4|RECCNT,1}",
    );
    assert_eq!(sheet.text, "7900\n");
    let asked = [(2, 5, 0), (3, 5, 2), (3, 5, 3), (2, 4, 0)];
    assert_eq!(sheet.reads, asked.map(|(k, p, r)| question(k, 1, p, r, 0)));
}

#[test]
fn np_takes_an_integer() {
    // Nothing is printed, so 60 lines are left.
    assert_eq!(run("$NP 60").end.pages, 1);
    assert_eq!(run("$NP 61").end.pages, 2);
    assert_eq!(run("$NP -5").end.pages, 1);
    assert_eq!(run("$NP").end.pages, 2);
}
