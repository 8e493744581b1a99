//! The parsed form of single lines beside the second interpreter, number by number, and of texts piece by piece.

use second::lines::{parse, Line, Piece};
use station_tests::random::Random;
use station_tests::samples::{damage, LINES};
use station_tests::{line, rows};
use std::collections::BTreeSet;

/// Arguments of every form, each at a limit or one past it.
#[rustfmt::skip]
const OPERANDS: &[&str] = &[
    "0", "7", "-7", "-0", "-", "--1", "+1", "0000000007", "00000000007", "2000000000",
    "-2000000000", "2000000001", "-2000000001", "9999999999", "10000000000",
    "0.5", "-0.5", "-0.0", ".5", "5.", "1.-5", "1.123456", "1.1234567", "0000000001.000000",
    "00000000001.0", "1999999999.999999", "2000000000.0", "2000000000.000000",
    "-2000000000.000000", "2000000000.000001", "-2000000000.000001", "9999999999.999999",
    "\"\"", "\"x\"", "\"sixteen bytes ok\"", "\"seventeen bytes x\"", "\"{}|,. $\"", "\"", "\"a",
    "IV", "IV0", "IV1", "IV01", "IV10", "IV99", "IV100", "iv1", "FV0", "FV1", "FV99", "FV100",
    "SV0", "SV1", "SV99", "SV100", "XV1", "PAGENUM", "PAGENUM1", "LINENUM", "LOOP", "LOOPX", "LOO",
    "R", "R0", "R1", "R01", "R10", "R11", "T", "T0", "T1", "T10", "T11", "R1.1",
    "P", "P0", "P1", "P01", "P65535", "P65536", "P99999", "P100000", "P1.", "P1.0", "P1.7",
    "P1.007", "P1.0007", "P1.999", "P1.1000", "P1.IV0", "P1.IV1", "P1.IV99", "P1.IV100",
    "P1.LOOP", "P1.FV1", "P1.-1", "P1.1.", "P1.2.3", "P1.IV2.LOOP", "P1.LOOP.IV3",
    "P65535.999.999", "P1.999.1000", "P1.1.1.1",
];

#[rustfmt::skip]
const FILTERS: &[&str] = &[
    "", "|ABS", "|INT", "|UPPER", "|LEN", "|RECCNT", "|ENTCNT", "|", "|abs", "|AB", "|ABSX",
    "||ABS", "|ABS|INT", "|RECCN",
];

/// Where an argument, an index or a number stands.
#[rustfmt::skip]
const FRAMES: &[(&str, &str)] = &[
    ("$SETE IV1 ", ""), ("$SETA FV99 ", ""), ("$SETS IV99 ", ""), ("$SETM FV1 ", ""),
    ("$SETD IV10 ", ""), ("$SETE SV99 ", ""), ("$SETA SV1 ", ""), ("$SETE IV100 ", ""),
    ("$SETE ", " 1"), ("$SETM ", " 1"), ("$SETE IV1  ", ""), ("$SETE IV1 ", " "),
    ("$IF ", ""), ("$IFNOT ", ""), ("$IFEQ ", " 1"), ("$IFEQ 1 ", ""), ("$IFNE ", " IV1"),
    ("$IFLT \"a\" ", ""), ("$IFLE ", " \"a\""), ("$IFGT 1 ", ""), ("$IFGE P1.1 ", ""),
    ("$IFEQSS \"{\" ", ""), ("$IFEQSS ", " \"|\""), ("$IFEQSI SV1 ", ""), ("$IFEQ 1 2 ", ""),
    ("$BT ", ""), ("$ET ", ""), ("$NP ", ""), ("$ET 1 ", ""), ("$SETDS ", ""),
    ("$REC ", " P1 1 0 5"), ("$REC 1 ", " 1 0 5"), ("$REC 10 P65535 ", " 0 5"),
    ("$REC 1 P1 LOOP ", " 5"), ("$TBL 1 P1 IV99 007 ", ""), ("$TBL 11 P1 1 1 ", ""),
    ("$TBL ", " P65536 1 1 1"), ("$ELSE ", ""), ("$ENDIF ", ""), ("$NOFF ", ""), ("$SEC ", ""),
    ("{", ",5}"), ("a{", ",32.6}b"), ("{", ",1.0}{"), ("{", "}"), ("{ ", ",5}"), ("{", " ,5}"),
    ("$PH {", ",12}x"), ("$PH9 \"{", ",3.1}\""), ("$PH1{", ",5}"), ("$REM {", ""),
];

/// What stands behind a field's comma: "w 1–32, d 0–6".
#[rustfmt::skip]
const LAYOUTS: &[&str] = &[
    "", "0", "1", "01", "9", "10", "32", "032", "33", "99", "100", "5.0", "5.6", "5.7", "5.06",
    "5.", "5.x", ".5", "1.6", "32.6", "33.6", "5.5.5", " 5", "5 ", "-5", "IV1",
];

/// Compares a line and each piece of its text; the line's row.
fn same(bytes: &[u8]) -> line::Row {
    let parsed = parse(bytes);
    let row = line::line(bytes);
    let text = String::from_utf8_lossy(bytes);
    assert_eq!(row, rows::line(bytes, parsed.as_ref()), "{text:?}");
    match parsed {
        Some(Line::Text(pieces)) => same_pieces(bytes, 0, &pieces),
        Some(Line::Heading(_, Some(pieces))) => same_pieces(bytes, row[2] as usize, &pieces),
        _ => {}
    }
    row
}

fn same_pieces(bytes: &[u8], from: usize, pieces: &[Piece]) {
    let text = String::from_utf8_lossy(bytes);
    let mut end = from;
    for (at, row) in rows::pieces(bytes, from, pieces) {
        assert_eq!(at, end, "{text:?}");
        assert_eq!(line::piece(bytes, at), row, "{text:?} at {at}");
        end = row[1] as usize;
    }
    assert_eq!(end, bytes.len(), "{text:?}");
    assert_eq!(line::piece(bytes, end), [0; 16], "{text:?}");
}

/// Every line of the list, every argument with every filter in every place, every width with every number of places.
#[test]
fn every_form_and_limit() {
    let mut forms = BTreeSet::new();
    let mut tests = BTreeSet::new();
    for sample in LINES {
        forms.insert(same(sample.as_bytes())[0]);
    }
    for operand in OPERANDS {
        for filter in FILTERS {
            for (before, behind) in FRAMES {
                let row = same(format!("{before}{operand}{filter}{behind}").as_bytes());
                if row[0] == 5 {
                    tests.insert((row[2], row[8]));
                }
            }
        }
        for layout in LAYOUTS {
            same(format!("{{{operand},{layout}}}").as_bytes());
            same(format!("$PH2 {{{operand},{layout}}}").as_bytes());
        }
    }
    assert!(forms.into_iter().eq(0..=18));
    // $IF took each of 14 kinds of operands with no filter or one of four, and Pn and Pn.r with their counts
    assert_eq!(tests.len(), 14 * 5 + 2);
}

/// What is no variable: damaged names and numbers, other letters, every other operand, a filter, nothing.
#[rustfmt::skip]
const NO_VARIABLES: &[&str] = &[
    "", " ", "\0", "0", "1", "-1", "1.5", "\"\"", "\"IV1\"", "\"x", "\"",
    "I", "F", "S", "V", "V1", "I1", "F1", "S1", "IV", "FV", "SV", "IV0", "FV0", "SV0",
    "IV01", "FV01", "SV01", "IV100", "FV100", "SV100", "IV99999", "IV100000", "IV1.1", "IV-1", "IV 1",
    "IVV1", "VIV1", "IIV1", "XV1", "iv1", "Iv1", "iV1", "IU1", "IW1", "HV1", "JV1", "GV1", "RV1", "TV1",
    "IV1x", "FV99x", "IV1|ABS", "FV1|INT", "SV1|UPPER", "IV1|", " IV1", "$IV1",
    "X", "PAGENUM", "LINENUM", "LOOP", "R1", "R10", "T1", "T10", "P1", "P1.1", "P1.IV1.LOOP", "P", "PV1",
];

/// "variable": IVn and FVn, n 1–99, after each of five words, SVn after $SETE; nothing else, whatever follows.
#[test]
fn only_variables_are_set() {
    for word in ["$SETE", "$SETA", "$SETS", "$SETM", "$SETD"] {
        for behind in ["", " ", " 1", "  1", " 1 ", " \"x\"", " IV1", "1"] {
            for name in OPERANDS {
                same(format!("{word} {name}{behind}").as_bytes());
            }
            for name in NO_VARIABLES {
                let text = format!("{word} {name}{behind}");
                assert_eq!(same(text.as_bytes())[0], 0, "{text:?}");
            }
        }
        for (kind, name) in [(4, "IV"), (5, "FV"), (6, "SV")] {
            for n in 0..=120 {
                let fine = (1..=99).contains(&n) && (kind < 6 || word == "$SETE");
                let row = same(format!("{word} {name}{n} 1").as_bytes());
                let told = if fine { [3, kind, n] } else { [0; 3] };
                assert_eq!([row[0], row[2], row[3]], told, "{word} {name}{n} 1");
                assert_eq!(same(format!("{word} {name}{n}").as_bytes())[0], 0);
                assert_eq!(same(format!("{word} {name}0{n} 1").as_bytes())[0], 0);
            }
        }
    }
}

/// Words alone, cut, in another case, with a space, with a byte more; numbers of headings; lengths of names.
#[test]
fn every_word() {
    let words = LINES.iter().filter_map(|l| l.split(' ').next());
    for word in words.filter(|w| w.starts_with('$')) {
        for cut in 0..=word.len() {
            for behind in ["", " ", "  ", "X", "1", " 1", " x", " IV1 1", " P1 1 1 1"] {
                same(format!("{}{behind}", &word[..cut]).as_bytes());
                same(format!("{}{behind}", word[..cut].to_lowercase()).as_bytes());
            }
        }
    }
    for n in 0..=100 {
        for behind in ["", " ", " x", "x"] {
            same(format!("$PH{n}{behind}").as_bytes());
            same(format!("$PH0{n}{behind}").as_bytes());
        }
    }
    for n in 0..=18 {
        same(format!("$SEC {}", "A".repeat(n)).as_bytes());
    }
}

/// "With fields at width w a line, command word included, has at most 132 bytes."
#[test]
fn widths() {
    for word in ["", "$PH ", "$PH1 ", "$REM ", "$SEC "] {
        for plain in 0..=140 {
            let bytes = "x".repeat(plain);
            for width in [1, 2, 31, 32] {
                same(format!("{word}{bytes}{{IV1,{width}}}").as_bytes());
                same(format!("{word}{{\"x\",{width}}}{bytes}{{P1.2,{width}.6}}").as_bytes());
            }
            for fields in 0..=5 {
                same(format!("{word}{}{bytes}", "{1,32}".repeat(fields)).as_bytes());
            }
        }
    }
}

/// All byte values at every place of the samples, before the byte there and in place of it, and that byte left out.
#[test]
fn every_byte_of_a_line() {
    for sample in LINES {
        for at in 0..=sample.len() {
            let (before, behind) = sample.as_bytes().split_at(at);
            let rest = &behind[behind.len().min(1)..];
            same(&[before, rest].concat());
            for byte in 0..=255 {
                same(&[before, &[byte], behind].concat());
                same(&[before, &[byte], rest].concat());
            }
        }
    }
}

fn some_text(random: &mut Random) -> String {
    let mut text = random.pick(&["", "", "$PH1 ", "$PH7 ", "$PH "]).to_string();
    for _ in 0..random.below(6) {
        text += &match random.below(3) {
            0 => random
                .pick(&["x", " ", "\"", "$", "a.b,c|d", "z z z "])
                .to_string(),
            1 => "w".repeat(random.below(40) as usize),
            _ => some_field(random),
        };
    }
    text
}

fn some_field(random: &mut Random) -> String {
    let argument = some_argument(random);
    let layout = random.pick(&["1", "8", "12.3", "32", "5.0", "33", "5.7"]);
    format!("{{{argument},{layout}}}")
}

/// Half of them without a filter.
fn some_argument(random: &mut Random) -> String {
    let operand = random.pick(OPERANDS);
    match random.below(2) {
        0 => operand.to_string(),
        _ => format!("{operand}{}", random.pick(FILTERS)),
    }
}

fn some_line(random: &mut Random) -> String {
    match random.below(4) {
        0 => random.pick(LINES).to_string(),
        1 => some_text(random),
        _ => {
            let (before, behind) = random.pick(FRAMES);
            format!("{before}{}{behind}", some_argument(random))
        }
    }
}

/// Two million generated lines, most of which have a form before they are damaged; each form is left often enough.
#[test]
fn lines_at_random() {
    let mut random = Random::new(0x11e5);
    let mut seen = [0; 19];
    let mut round = 0;
    while round < 2_000_000 {
        let mut bytes = some_line(&mut random).into_bytes();
        if parse(&bytes).is_none() && random.below(4) > 0 {
            continue;
        }
        for _ in 0..round % 3 {
            damage(&mut random, &mut bytes);
        }
        seen[same(&bytes)[0] as usize] += 1;
        round += 1;
    }
    assert!(seen.iter().all(|&count| count > 2_000), "{seen:?}");
}

/// A buffer with fewer than 16 places is left alone, and so is what lies behind the row.
#[test]
fn buffers() {
    for places in 0..20 {
        for sample in LINES {
            let (mut first, mut second) = (vec![99; places], vec![99; places]);
            let fits = places >= 16;
            assert_eq!(line::write_line(sample.as_bytes(), &mut first), fits);
            assert_eq!(line::write_piece(sample.as_bytes(), 0, &mut second), fits);
            let untouched = if fits { 16.. } else { 0.. };
            let rest = [&first[untouched.clone()], &second[untouched]].concat();
            assert!(rest.iter().all(|&n| n == 99));
        }
    }
}
