//! `station check`: one message in rustc's manner, with the column and what would have been allowed there.

mod common;

use common::{folder, station};
use station::Refusal;
use std::sync::atomic::{AtomicUsize, Ordering::Relaxed};

/// The message on a template: what it says below document 01's words.
fn below(template: &str, refusal: Refusal) -> String {
    static COUNT: AtomicUsize = AtomicUsize::new(0);
    let name = format!("check{}", COUNT.fetch_add(1, Relaxed));
    let folder = folder(&name, &[("t", template.as_bytes())]);
    let (status, out, err) = station(&folder, &["check", "t"]);
    assert_eq!((status, out.as_str()), (1, ""), "{template}");
    let head = format!("error[{}]: {refusal}\n", refusal.number());
    assert!(err.starts_with(&head), "{err}");
    err[head.len()..].to_owned()
}

#[test]
fn an_accepted_template_is_status_0_and_silence() {
    let folder = folder(
        "accepted",
        &[("t", b"$SEC A\n$IF 1\nx\n$ENDIF\n"), ("none", b"$REM\n")],
    );
    assert_eq!(
        station(&folder, &["check", "t"]),
        (0, String::new(), String::new())
    );
    assert_eq!(
        station(&folder, &["check", "none"]),
        (0, String::new(), String::new())
    );
}

#[test]
fn a_message_has_the_line_the_column_and_what_is_allowed() {
    let said = below("$SEC A\n\n\n\n\n\n\n\n\n$SETX IV1 5\n", Refusal::LineForm);
    let wanted = "  --> t:10:1\n   |\n10 | $SETX IV1 5\n   | ^^^^^ unknown word $SETX\n   = allowed: $SEC, $SETE, ";
    assert!(said.starts_with(wanted), "{said}");
}

#[test]
fn lines_without_a_form() {
    // A line, the column and width of the mark, what it says.
    let rows: [(&str, usize, usize, &str); 40] = [
        ("$SETE IV100 5", 7, 5, "n of IVn is 1–99"),
        ("$SETE IV01 5", 7, 4, "n of IVn has no leading zeros"),
        (
            "$SETE P1 5",
            7,
            2,
            "this is no variable that the command sets",
        ),
        (
            "$SETA SV1 \"x\"",
            7,
            3,
            "this is no variable that the command sets",
        ),
        (
            "$SETE IV1|ABS 5",
            10,
            4,
            "a variable that is set takes no filter",
        ),
        (
            "$SETE IV1",
            10,
            1,
            "the line ends where one space and an argument is due",
        ),
        (
            "$SETE  IV1 5",
            7,
            1,
            "this is no variable that the command sets",
        ),
        ("$SETE IV1 five", 11, 4, "this is no argument"),
        (
            "$SETE IV1 2000000001",
            11,
            10,
            "a number literal is within ±2,000,000,000",
        ),
        (
            "$SETE FV1 -2000000000.000001",
            11,
            18,
            "a number literal is within ±2,000,000,000",
        ),
        ("$SETE IV1 12345678901", 11, 11, "a number has 1–10 digits"),
        (
            "$SETE IV1 -",
            11,
            1,
            "a number has a digit behind the minus",
        ),
        (
            "$SETE FV1 1.",
            11,
            2,
            "a decimal has 1–6 digits behind the point",
        ),
        ("$SETE IV1 5 6", 12, 2, "something behind the last argument"),
        ("$ELSE x", 6, 2, "something behind the last argument"),
        ("$ET 1 2", 6, 2, "something behind the last argument"),
        (
            "$SETE SV1 \"seventeen bytes a\"",
            11,
            19,
            "a string of 17 bytes",
        ),
        ("$SETE SV1 \"open", 11, 5, "the string has no closing quote"),
        (
            "$IFEQ 1",
            8,
            1,
            "the line ends where one space and an argument is due",
        ),
        ("$REC 11 P1 1 0 5", 6, 2, "n is 1–10"),
        ("$REC 1 IV1 1 0 5", 8, 3, "a parameter Pm is due here"),
        (
            "$REC 1 P1 1 0",
            14,
            1,
            "the line ends where one space and a count is due",
        ),
        ("$TBL 1 P1 FV1 0 5", 11, 3, "this is no index"),
        ("$SETDS 0001", 8, 4, "an index has 1–3 digits"),
        ("$SEC lower", 6, 1, "a name hasn't this character"),
        ("$SEC ABCDEFGHIJKLMNOPQ", 6, 17, "a name of 17 characters"),
        (
            "$SEC",
            5,
            1,
            "the line ends where one space and a name is due",
        ),
        ("$PH10 x", 1, 5, "n of $PHn is 1–9"),
        ("x {P0,3}", 4, 2, "n of Pn is 1–65535"),
        ("x {P1|MAX,3}", 6, 4, "unknown filter |MAX"),
        ("x {P1.1|RECCNT,3}", 8, 7, "|RECCNT stands on Pn alone"),
        ("x {P1|ENTCNT,3}", 6, 7, "|ENTCNT stands on Pn.r alone"),
        ("x {IV1,33}", 8, 2, "a field's width w is 1–32"),
        ("x {IV1,05}", 8, 2, "a field's width w is 1–32"),
        ("x {IV1,5.7}", 10, 1, "a field's places d are 0–6"),
        ("x {IV1 5}", 7, 1, "a comma and the width is due here"),
        (
            "x {IV1,5",
            9,
            1,
            "the line ends where the closing brace is due",
        ),
        ("x } y", 3, 1, "a closing brace outside a field"),
        ("x { y", 4, 1, "this is no argument"),
        ("{R11,3}", 2, 3, "n of Rn is 1–10"),
    ];
    for (line, column, width, what) in rows {
        let said = below(&format!("$SEC A\n{line}\n"), Refusal::LineForm);
        let mark = format!("{}{} {what}", " ".repeat(column - 1), "^".repeat(width));
        let wanted = format!(" --> t:2:{column}\n  |\n2 | {line}\n  | {mark}\n");
        assert!(said.starts_with(&wanted), "{said}\nwanted\n{wanted}");
    }
}

#[test]
fn a_width_of_140_where_132_are_allowed() {
    let line = format!("{}{{IV1,32}}{{FV1,32}} end", "x".repeat(72));
    let said = below(&format!("$SEC A\n{line}\n"), Refusal::LineForm);
    let mark = format!("{}{}", " ".repeat(80), "^".repeat(8));
    let wanted = format!(
        " --> t:2:81\n  |\n2 | {line}\n  | {mark} with its fields at their widths the line has 140 bytes\n  = allowed: 132, a command word included; here the line passes them\n"
    );
    assert_eq!(said, wanted);
}

#[test]
fn bytes_and_lengths() {
    let said = below("$SEC A\r\nx\n", Refusal::TemplateForm);
    assert!(said.starts_with(" --> t:1:7\n  |\n1 | $SEC A?\n  |       ^ byte 0x0D, a carriage return: a line ends with 0x0A alone\n  = allowed: 0x20–0x7E\n"), "{said}");
    let said = below("$SEC A\na\tb\n", Refusal::TemplateForm);
    assert!(
        said.contains("t:2:2\n") && said.contains("byte 0x09, a tab\n"),
        "{said}"
    );
    let said = below(
        &format!("$SEC A\n{}\n", "x".repeat(133)),
        Refusal::TemplateForm,
    );
    assert!(
        said.contains("t:2:133\n")
            && said.contains(" ^ the line has 133 bytes\n  = allowed: 132\n"),
        "{said}"
    );
}

#[test]
fn what_is_open_and_since_which_line() {
    let rows: [(&str, &str); 9] = [
        ("$SEC A\n$IF 1\n$BT 3\nx\n", " --> t:4:1\n  |\n4 | x\n  | ^ $BT of line 3 is open at the last line\n  = open: $IF since line 2\n  = open: $BT since line 3\n"),
        ("$SEC A\n$IF 1\n$SEC B\n", " --> t:3:1\n  |\n3 | $SEC B\n  | ^^^^ $IF of line 2 is open at the next $SEC\n  = open: $IF since line 2\n"),
        ("$SEC A\n$IFLT 1 2\n$BT 3\n$ENDIF\n", " --> t:4:1\n  |\n4 | $ENDIF\n  | ^^^^^^ $BT of line 3 is open, and closes first\n  = open: $IFLT since line 2\n  = open: $BT since line 3\n"),
        ("$SEC A\n$IF 1\n$ELSE\n$ELSE\n", " --> t:4:1\n  |\n4 | $ELSE\n  | ^^^^^ $IF of line 2 has an $ELSE\n  = open: $IF since line 2, its $ELSE is line 3\n"),
        ("$SEC A\n$ENDIF\n", " --> t:2:1\n  |\n2 | $ENDIF\n  | ^^^^^^ no test is open\n"),
        ("$SEC A\n$ET 2\n", " --> t:2:1\n  |\n2 | $ET 2\n  | ^^^ no table is open\n"),
        ("$SEC A\n$ELSE\n", " --> t:2:1\n  |\n2 | $ELSE\n  | ^^^^^ no test is open\n"),
        ("$REM\nx\n$SEC A\n", " --> t:2:1\n  |\n2 | x\n  | ^ no $SEC stands before this line, which isn't a $REM\n"),
        ("$SEC A\n$BT 1\n$BT 1\n$BT 1\n$BT 1\n$BT 1\n$BT 1\n", " --> t:7:1\n  |\n7 | $BT 1\n  | ^^^ 5 tables are open, and no more may be\n"),
    ];
    for (template, wanted) in rows {
        let said = below(template, Refusal::Nesting);
        assert!(said.starts_with(wanted), "{said}");
    }
}

#[test]
fn a_name_that_came_before() {
    let said = below(
        "$SEC LONGNAME1\n$SEC B\n$SEC LONGNAME2\n",
        Refusal::NameRepeated,
    );
    let wanted = " --> t:3:6\n  |\n3 | $SEC LONGNAME2\n  |      ^^^^^^^^ `LONGNAME` began the name in line 1 too\n  = names are compared by their first eight characters\n";
    assert_eq!(said, wanted);
}
