//! A number of the line as a command's argument, beside the second interpreter. One without a filter is worth itself and is not worked out like
//! other arguments: here each stands with every filter, where one argument is taken and where two are.

use second::Report;
use station_tests::report::{Call, Pair};

const ROOM: usize = 65_536;

fn report(pair: &mut Pair, template: &str) -> Report {
    let call = Call {
        template: template.as_bytes(),
        section: b"A",
        buffer: &[],
        length: 0,
    };
    pair.report(call, ROOM, 8)
}

const NUMBERS: [&str; 14] = [
    "0",
    "-0",
    "1",
    "-1",
    "007",
    "7.0",
    "-7.5",
    "0.000001",
    "-0.5",
    "2000000000",
    "-2000000000",
    "2000000000.000000",
    "2000000000.000001",
    "\"7\"",
];
const FILTERS: [&str; 7] = ["", "|ABS", "|INT", "|UPPER", "|LEN", "|RECCNT", "|"];
const SHOWN: &str = "{IV1,12}{FV1,19.6}{SV1,16}{LINENUM,3}{PAGENUM,3}\n";

#[test]
fn one_argument() {
    let mut pair = Pair::new(ROOM, 8);
    let mut printed = 0;
    for number in NUMBERS {
        for filter in FILTERS {
            let x = number.to_owned() + filter;
            for word in ["$SETE", "$SETA", "$SETS", "$SETM", "$SETD"] {
                for variable in ["IV1", "FV1", "SV1"] {
                    let lines =
                        format!("$SETE IV1 9\n$SETE FV1 2.5\n{word} {variable} {x}\n{SHOWN}");
                    printed +=
                        usize::from(report(&mut pair, &format!("$SEC A\n{lines}")).number == 0);
                }
            }
            for lines in [
                format!("$IF {x}\nmet\n$ELSE\nfailed\n$ENDIF\n"),
                format!("$IFNOT {x}\nmet\n$ELSE\nfailed\n$ENDIF\n"),
                format!("$BT 3\n{{LOOP,12}}\n$ET {x}\n"),
                format!("x\n$NP {x}\n{SHOWN}"),
            ] {
                printed += usize::from(report(&mut pair, &format!("$SEC A\n{lines}")).number == 0);
            }
        }
    }
    assert!(printed > 200, "{printed} of the templates are printed");
}

/// $BT alone, with few passes: a table of 2,000,000,000 would end with 7.
#[test]
fn passes_of_a_table() {
    let mut pair = Pair::new(ROOM, 8);
    for number in ["-1", "0", "1", "3", "03", "-3", "3.0", "-2.5"] {
        for filter in FILTERS {
            report(
                &mut pair,
                &format!("$SEC A\n$BT {number}{filter}\n{{LOOP,3}}\n$ET\n"),
            );
        }
    }
}

#[test]
fn two_arguments() {
    let mut pair = Pair::new(ROOM, 8);
    for (left, right) in [
        ("-5", "5"),
        ("5", "-5"),
        ("-5.0", "5"),
        ("0.5", "-1.5"),
        ("\"a\"", "5"),
    ] {
        for first in FILTERS {
            for second in FILTERS {
                for word in [
                    "$IFEQ", "$IFNE", "$IFLT", "$IFLE", "$IFGT", "$IFGE", "$IFEQSS", "$IFEQSI",
                ] {
                    let test = format!("{word} {left}{first} {right}{second}");
                    report(
                        &mut pair,
                        &format!("$SEC A\n{test}\nmet\n$ELSE\nfailed\n$ENDIF\n"),
                    );
                }
            }
        }
    }
}
