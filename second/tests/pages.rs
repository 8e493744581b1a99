//! The page's rules.

mod common;
use common::*;

/// A body of so many text lines.
fn lines(count: usize) -> String {
    format!("$BT {count}\nx\n$ET\n")
}

#[test]
fn linenum_is_61_after_60_lines_and_the_break_comes_with_the_next_text_line() {
    let full = run(&format!("{}$SETE IV1 LINENUM\n$REM", lines(60)));
    assert_eq!((full.end.pages, full.end.text_bytes), (1, 120));
    let next = run(&format!(
        "{}$SETE IV1 LINENUM\n{{IV1,2}} {{LINENUM,2}}",
        lines(60)
    ));
    assert!(next.text.ends_with("x\n\x0C61  1\n"));
    assert_eq!(next.end.pages, 2);
}

#[test]
fn np_on_a_full_page_breaks_once() {
    let sheet = run(&format!("{}$NP 1\ny", lines(60)));
    assert_eq!(sheet.end.pages, 2);
    let stays = run(&format!("{}$NP 0", lines(60)));
    assert_eq!(stays.end.pages, 1);
}

#[test]
fn headings_count_as_lines_of_their_page() {
    let sheet = run(&format!("$PH2 h{{PAGENUM,1}}\n{}", lines(58)));
    // Three lines of heading and 57 others fill the first page.
    let expected = format!("\nh1\n\n{}\x0C\nh2\n\nx\n", "x\n".repeat(57));
    assert_eq!(sheet.text, expected);
    assert_eq!(sheet.end.pages, 2);
}

#[test]
fn all_nine_headings_and_their_blank_line() {
    let defined: String = (1..=9).map(|n| format!("$PH{n} {{LINENUM,2}}\n")).collect();
    let sheet = run(&format!("{defined}{{LINENUM,2}}"));
    assert_eq!(sheet.text, " 1\n 2\n 3\n 4\n 5\n 6\n 7\n 8\n 9\n\n11\n");
}

#[test]
fn headings_defined_in_mid_page_wait_for_the_next() {
    assert_eq!(prints("a\n$PH1 h\nb\n$NP\nc"), "a\nb\n\x0Ch\n\nc\n");
}

#[test]
fn headings_are_not_printed_without_a_text_line() {
    let sheet = run("$PH1 h\n$NP\n$NP");
    assert_eq!((sheet.text.as_str(), sheet.end.pages), ("\x0C\x0C", 3));
}

#[test]
fn heading_fields_use_what_holds_when_they_are_printed() {
    let cells = [in_datasource(3, integer((1, 0, 2), 8))];
    let sheet = with(
        &cells,
        "$PH1 {LOOP,1}{IV1,1}{P1.0.LOOP,1}\n$BT 2\n$SETE IV1 LOOP\n$SETDS 3\n$NP\nx\n$ET",
    );
    assert_eq!(sheet.text, "\x0C11?\n\nx\n\x0C228\n\nx\n");
}

#[test]
fn a_heading_refusal_names_the_ph_line() {
    // 8, 9, 11 and 14 in turn.
    assert_eq!(ends("x\n$PH2 {P1.IV1,1}\n$SETE IV1 -1\n$NP\ny"), (8, 3));
    let full = lent(b"$SEC A\n$PH1 {P1,3}\nx", b"A", &[], 100, 0);
    assert_eq!(full.ends(), (9, 2));
    assert_eq!(ends("$REM\n$PH1 {SV1|ABS,1}\nx"), (11, 3));
    let small = lent(b"$SEC A\n$PH1 ab\nx", b"A", &[], 2, 0);
    assert_eq!(small.ends(), (14, 2));
}

#[test]
fn a_blank_heading_lines_refusal_names_the_text_line_due() {
    let template = b"$SEC A\n$PH2 h\n$REM\nx";
    let at = |bytes| lent(template, b"A", &[], bytes, 0);
    assert_eq!(at(0).ends(), (14, 4)); // The undefined first heading.
    assert_eq!(at(1).ends(), (14, 2)); // The second.
    assert_eq!(at(3).ends(), (14, 4)); // The closing blank line.
    assert_eq!(at(4).ends(), (14, 4)); // The text line.
    assert_eq!(
        (at(4).text.as_str(), at(6).text.as_str()),
        ("\nh\n\n", "\nh\n\nx\n")
    );
}

#[test]
fn a_breaks_refusal_names_the_line_executed() {
    let template = format!("$SEC A\n{}$PH1 h\ny", lines(60));
    let at = |bytes| lent(template.as_bytes(), b"A", &[], bytes, 0);
    assert_eq!((at(120).ends(), at(120).end.pages), ((14, 6), 1));
    assert_eq!((at(121).ends(), at(121).end.pages), ((14, 5), 2));
}

#[test]
fn a_refused_step_prints_nothing_and_leaves_the_page() {
    let sheet = run("a\n{LINENUM,1}{SV1|ABS,1}");
    assert_eq!((sheet.text.as_str(), sheet.end.pages), ("a\n", 1));
}

#[test]
fn np_n_breaks_if_61_minus_linenum_is_below_n() {
    for printed in [0, 1, 30, 59, 60] {
        let left = 60 - printed;
        let at = |n: usize| run(&format!("{}$NP {n}", lines(printed))).end.pages;
        assert_eq!((at(left), at(left + 1)), (1, 2), "{printed}");
    }
}

#[test]
fn noff_ends_at_the_next_section() {
    let sheet = over(&[], "$SEC A\n$NOFF\n$NP\n$SEC B\n$NP\nx", "");
    assert_eq!((sheet.text.as_str(), sheet.end.pages), ("\x0Cx\n", 3));
}

#[test]
fn a_page_goes_on_across_sections() {
    let template = format!("$SEC A\n$PH1 h\n{}$SEC B\n{}", lines(57), lines(2));
    let sheet = over(&[], &template, "");
    // Two lines of heading, 57 and one more fill the page.
    let expected = format!("h\n\n{}\x0Cx\n", "x\n".repeat(58));
    assert_eq!(sheet.text, expected);
}
