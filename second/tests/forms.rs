//! The forms of lines, fields, arguments and filters, each parsed and refused.

mod common;
use common::*;
use second::arguments::{Argument, Array, Filter, Index, Source, Variable};
use second::lines::{parse, Fill, Line, Piece, Relation, Test};
use second::numbers::Operation;
use second::template::split;

fn argument(text: &str) -> Option<Argument> {
    match parse(format!("$IF {text}").as_bytes())? {
        Line::Test(Test::NonZero(argument)) => Some(argument),
        _ => None,
    }
}

fn source(text: &str) -> Option<Source> {
    argument(text).map(|argument| argument.source)
}

fn refused(lines: &[&str]) {
    for line in lines {
        assert_eq!(parse(line.as_bytes()), None, "{line}");
        assert_eq!(ends(&format!("x\n{line}")), (3, 3), "{line}");
    }
}

fn refused_arguments(arguments: &[&str]) {
    for text in arguments {
        refused(&[&format!("$NP {text}"), &format!("{{{text},5}}")]);
    }
}

fn one() -> Argument {
    Argument {
        source: Source::Integer(1),
        filter: None,
    }
}

#[test]
fn integers_have_an_optional_minus_and_1_to_10_digits() {
    assert_eq!(source("0"), Some(Source::Integer(0)));
    assert_eq!(source("-0"), Some(Source::Integer(0)));
    assert_eq!(source("0000000012"), Some(Source::Integer(12)));
    assert_eq!(source("2000000000"), Some(Source::Integer(2_000_000_000)));
    assert_eq!(source("-2000000000"), Some(Source::Integer(-2_000_000_000)));
    refused_arguments(&[
        "",
        "-",
        "+1",
        "--1",
        "00000000001",
        "2000000001",
        "9999999999",
    ]);
    refused_arguments(&["1a", "a", "1 ", " 1", "0x1"]);
}

#[test]
fn decimals_have_a_point_and_1_to_6_digits() {
    assert_eq!(source("1.5"), Some(Source::Decimal(1_500_000)));
    assert_eq!(source("-0.000001"), Some(Source::Decimal(-1)));
    assert_eq!(source("0000000001.0"), Some(Source::Decimal(1_000_000)));
    assert_eq!(
        source("2000000000.0"),
        Some(Source::Decimal(2_000_000_000_000_000))
    );
    refused_arguments(&["1.", ".5", "-.5", "1.0000000", "1.5.1", "1.-5"]);
    refused_arguments(&["2000000000.000001", "-2000000000.000001", "9999999999.9"]);
}

#[test]
fn strings_have_0_to_16_bytes_without_a_quote() {
    assert_eq!(source("\"\""), Some(Source::String(vec![])));
    assert_eq!(source("\"a b\""), Some(Source::String(b"a b".to_vec())));
    assert!(source("\"0123456789abcdef\"").is_some());
    refused_arguments(&[
        "\"0123456789abcdefg\"",
        "\"",
        "\"a",
        "a\"",
        "\"a\"\"",
        "'a'",
    ]);
}

#[test]
fn variables_have_numbers_1_to_99_without_leading_zeros() {
    assert_eq!(source("IV1"), Some(Source::Variable(Variable::Iv(1))));
    assert_eq!(source("FV99"), Some(Source::Variable(Variable::Fv(99))));
    assert_eq!(source("SV10"), Some(Source::Variable(Variable::Sv(10))));
    for kind in ["IV", "FV", "SV"] {
        for number in ["", "0", "01", "100", "-1", "1x", "100000000000", "x"] {
            refused_arguments(&[&format!("{kind}{number}")]);
        }
    }
    refused_arguments(&["iv1", "XV1", "V1", "IV0P1", "IV-5", "IV100LOOP"]);
}

#[test]
fn fixed_names() {
    assert_eq!(source("PAGENUM"), Some(Source::PageNum));
    assert_eq!(source("LINENUM"), Some(Source::LineNum));
    assert_eq!(source("LOOP"), Some(Source::Loop));
    refused_arguments(&["PAGENUM1", "LINE", "loop", "LOOPS", "PAGE"]);
}

#[test]
fn arrays_have_numbers_1_to_10() {
    assert_eq!(source("R1"), Some(Source::Array(Array::R(1))));
    assert_eq!(source("T10"), Some(Source::Array(Array::T(10))));
    refused_arguments(&["R", "R0", "R11", "R01", "T0", "T11", "T010", "R1.1"]);
}

#[test]
fn cells_have_up_to_two_index_parts() {
    let cell = |parameter, record, entry| {
        Some(Source::Cell {
            parameter,
            record,
            entry,
        })
    };
    assert_eq!(source("P1"), cell(1, None, None));
    assert_eq!(
        source("P65535.007"),
        cell(65_535, Some(Index::Literal(7)), None)
    );
    assert_eq!(
        source("P2.IV99.LOOP"),
        cell(2, Some(Index::Iv(99)), Some(Index::Loop))
    );
    assert_eq!(
        source("P2.999.0"),
        cell(2, Some(Index::Literal(999)), Some(Index::Literal(0)))
    );
    refused_arguments(&["P", "P0", "P01", "P65536", "P100000", "P-1", "PP1"]);
    refused_arguments(&["P1.", "P1..1", "P1.1.", "P1.1.1.1", "P1.0001", "P1.-1"]);
    refused_arguments(&[
        "P1.FV1",
        "P1.IV0",
        "P1.IV01",
        "P1.R1",
        "P1.PAGENUM",
        "P1.P1",
    ]);
}

#[test]
fn one_filter_may_follow() {
    for (text, filter) in [
        ("1|ABS", Filter::Abs),
        ("\"x\"|INT", Filter::Int),
        ("1|UPPER", Filter::Upper),
        ("LOOP|LEN", Filter::Len),
        ("P1|RECCNT", Filter::RecCnt),
        ("P1.IV1|ENTCNT", Filter::EntCnt),
    ] {
        let parsed = argument(text).and_then(|argument| argument.filter);
        assert_eq!(parsed, Some(filter), "{text}");
    }
    refused_arguments(&[
        "1|",
        "|ABS",
        "1|abs",
        "1|ABSX",
        "1|ABS|INT",
        "1||ABS",
        "1 |ABS",
    ]);
    refused_arguments(&["1|RECCNT", "IV1|ENTCNT", "R1|RECCNT", "\"x\"|ENTCNT"]);
}

#[test]
fn fields_have_a_width_1_to_32_and_places_0_to_6() {
    let field = |width, places| {
        let argument = one();
        Some(Line::Text(vec![Piece::Field {
            argument,
            width,
            places,
        }]))
    };
    assert_eq!(parse(b"{1,1}"), field(1, None));
    assert_eq!(parse(b"{1,32.6}"), field(32, Some(6)));
    assert_eq!(parse(b"{1,10.0}"), field(10, Some(0)));
    refused(&[
        "{1,0}", "{1,33}", "{1,01}", "{1,}", "{1}", "{1,3.}", "{1,3.7}",
    ]);
    refused(&[
        "{1,3.00}", "{1,3.06}", "{1,3,4}", "{1,-3}", "{ 1,3}", "{1, 3}", "{1,3 }",
    ]);
    refused(&["{,3}", "{1,100000000000}", "{1,IV1}"]);
}

#[test]
fn other_braces_outside_a_fields_string_are_refused() {
    refused(&[
        "{", "}", "a{b", "a}b", "{}", "{{1,3}}", "{1,3}}", "\"{\"", "\"}\"",
    ]);
    refused(&["$PH1 {", "$PH1 }", "$PH {1,3"]);
    assert_eq!(prints("{\"}{\",2}{\"{1,3}\",5}"), "}{{1,3}\n");
    // Quotes and bars in text are text; braces in a command's string are bytes.
    assert_eq!(prints("\"a|b\""), "\"a|b\"\n");
    assert_eq!(prints("$SETE SV1 \"{}\"\n{SV1,2}"), "{}\n");
}

#[test]
fn lines_end_at_0x0a_and_none_begins_after_the_final_one() {
    assert_eq!(split(b""), Vec::<&[u8]>::new());
    assert_eq!(split(b"\n"), [b""]);
    assert_eq!(split(b"a"), [b"a"]);
    assert_eq!(split(b"a\n"), [b"a"]);
    assert_eq!(split(b"a\n\n"), [b"a".as_slice(), b""]);
    assert_eq!(prints("a\n\n b \n"), "a\n\n b \n");
}

#[test]
fn only_lines_beginning_with_a_dollar_are_commands() {
    assert_eq!(prints(" $NP\na$NP"), " $NP\na$NP\n");
    refused(&[
        "$",
        "$ ",
        "$$",
        "$np",
        "$ NP",
        "$NP$",
        "$XYZ 1",
        "$SET IV1 1",
    ]);
}

#[test]
fn one_space_stands_before_each_argument_and_none_behind() {
    refused(&[
        "$IF  1", "$IF 1 ", "$IF1", "$IF", "$IF ", "$IF 1 2", "$IF\"x\"",
    ]);
    refused(&[
        "$IFEQ 1",
        "$IFEQ 1 2 3",
        "$IFEQ 1  2",
        "$IFEQ \"a\"\"b\"",
        "$IFEQ 1,2",
    ]);
    refused(&[
        "$ELSE ", "$ELSE 1", "$ENDIF ", "$NOFF ", "$NOFF 1", "$ENDIF x",
    ]);
    refused(&[
        "$BT", "$BT ", "$BT 1 2", "$ET ", "$ET 1 2", "$NP ", "$NP 1 2",
    ]);
}

#[test]
fn section_names_have_1_to_16_of_capitals_and_digits() {
    let name = b"ABCDEFGHIJKLM019".to_vec();
    assert_eq!(parse(b"$SEC ABCDEFGHIJKLM019"), Some(Line::Section(name)));
    assert_eq!(parse(b"$SEC 0"), Some(Line::Section(b"0".to_vec())));
    refused(&["$SEC", "$SEC ", "$SEC a", "$SEC A ", "$SEC A B", "$SEC A_B"]);
    refused(&["$SEC  A", "$SEC ABCDEFGHIJKLM0123"]);
}

#[test]
fn set_commands_take_a_variable_and_an_argument() {
    let variable = Variable::Fv(7);
    assert_eq!(parse(b"$SETE FV7 1"), Some(Line::Set(variable, one())));
    for (word, operation) in [
        ("$SETA", Operation::Add),
        ("$SETS", Operation::Subtract),
        ("$SETM", Operation::Multiply),
        ("$SETD", Operation::Divide),
    ] {
        let line = parse(format!("{word} FV7 1").as_bytes());
        assert_eq!(line, Some(Line::Change(operation, variable, one())));
        // After another word than $SETE, SV is 3.
        refused(&[&format!("{word} SV1 \"x\"")]);
    }
    refused(&[
        "$SETE",
        "$SETE IV1",
        "$SETE IV1 ",
        "$SETE 1 IV1",
        "$SETE LOOP 1",
    ]);
    refused(&["$SETE R1 1", "$SETE P1 1", "$SETE IV1 1 2", "$SETX IV1 1"]);
}

#[test]
fn tests_take_one_or_two_arguments() {
    let test = |line: &[u8]| match parse(line) {
        Some(Line::Test(test)) => test,
        other => panic!("{other:?}"),
    };
    assert_eq!(test(b"$IF 1"), Test::NonZero(one()));
    assert_eq!(test(b"$IFNOT 1"), Test::Zero(one()));
    for (word, relation) in [
        ("$IFEQ", Relation::Equal),
        ("$IFNE", Relation::NotEqual),
        ("$IFLT", Relation::Less),
        ("$IFLE", Relation::LessOrEqual),
        ("$IFGT", Relation::Greater),
        ("$IFGE", Relation::GreaterOrEqual),
    ] {
        let parsed = test(format!("{word} 1 1").as_bytes());
        assert_eq!(parsed, Test::Numbers(relation, one(), one()));
    }
    for (word, ignore_case) in [("$IFEQSS", false), ("$IFEQSI", true)] {
        let parsed = test(format!("{word} 1 1").as_bytes());
        let (first, second) = (one(), one());
        assert_eq!(
            parsed,
            Test::Strings {
                ignore_case,
                first,
                second
            }
        );
    }
    refused(&[
        "$IFEQS \"\" \"\"",
        "$IFNESS \"\" \"\"",
        "$IFNOT",
        "$IFGT 1",
        "$IFEQSI \"\"",
    ]);
}

#[test]
fn tables_pages_and_datasources() {
    assert_eq!(parse(b"$BT 1"), Some(Line::BeginTable(one())));
    assert_eq!(parse(b"$ET"), Some(Line::EndTable(None)));
    assert_eq!(parse(b"$ET 1"), Some(Line::EndTable(Some(one()))));
    assert_eq!(parse(b"$NP"), Some(Line::NewPage(None)));
    assert_eq!(parse(b"$NP 1"), Some(Line::NewPage(Some(one()))));
    assert_eq!(parse(b"$NOFF"), Some(Line::NoFormFeed));
    assert_eq!(parse(b"$ELSE"), Some(Line::Else));
    assert_eq!(parse(b"$ENDIF"), Some(Line::EndIf));
    assert_eq!(
        parse(b"$SETDS 007"),
        Some(Line::Datasource(Index::Literal(7)))
    );
    assert_eq!(parse(b"$SETDS IV3"), Some(Line::Datasource(Index::Iv(3))));
    assert_eq!(parse(b"$SETDS LOOP"), Some(Line::Datasource(Index::Loop)));
    refused(&[
        "$SETDS",
        "$SETDS 0001",
        "$SETDS -1",
        "$SETDS P1",
        "$SETDS FV1",
        "$SETDS 1.0",
    ]);
}

#[test]
fn rec_and_tbl_take_a_number_a_parameter_and_three_indexes() {
    let fill = |array| {
        Some(Line::Fill(Fill {
            array,
            parameter: 65_535,
            record: Index::Literal(1),
            entry: Index::Iv(2),
            count: Index::Loop,
        }))
    };
    assert_eq!(parse(b"$REC 10 P65535 001 IV2 LOOP"), fill(Array::R(10)));
    assert_eq!(parse(b"$TBL 1 P65535 1 IV2 LOOP"), fill(Array::T(1)));
    for word in ["$REC", "$TBL"] {
        for rest in [
            "",
            " 1 P1 0 0",
            " 1 P1 0 0 1 1",
            " 0 P1 0 0 1",
            " 11 P1 0 0 1",
            " 01 P1 0 0 1",
            " IV1 P1 0 0 1",
            " R1 P1 0 0 1",
            " 1 1 0 0 1",
            " 1 P1.0 0 0 1",
            " 1 P0 0 0 1",
            " 1 P1 0000 0 1",
            " 1 P1 0 -1 1",
            " 1 P1 0 0 P1",
        ] {
            refused(&[&format!("{word}{rest}")]);
        }
    }
}

#[test]
fn headings_are_numbered_1_to_9() {
    let text = |text: &[u8]| Some(vec![Piece::Bytes(text.to_vec())]);
    assert_eq!(parse(b"$PH x"), Some(Line::Heading(1, text(b"x"))));
    assert_eq!(parse(b"$PH9  x "), Some(Line::Heading(9, text(b" x "))));
    assert_eq!(parse(b"$PH2"), Some(Line::Heading(2, None)));
    assert_eq!(parse(b"$PH2 "), Some(Line::Heading(2, Some(vec![]))));
    refused(&[
        "$PH0", "$PH10", "$PH01 x", "$PHx", "$PH1x", "$PHA x", "$PH12 x",
    ]);
}

#[test]
fn remarks_stand_alone_or_with_a_space_and_any_text() {
    for line in ["$REM", "$REM ", "$REM {", "$REM \"", "$REM  $SEC x"] {
        assert_eq!(parse(line.as_bytes()), Some(Line::Remark));
    }
    refused(&["$REMARK", "$REM{", "$rem"]);
}
