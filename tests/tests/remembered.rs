//! Jumps that repeat, beside the second interpreter. A run remembers 64 of them, one for each remainder of a place by 64: here some are
//! taken again, some are replaced, and the line that a later refusal names says whether lines were counted.

use second::Report;
use station_tests::random::Random;
use station_tests::report::{Call, Pair};
use station_tests::sheets::small_store;

const ROOM: usize = 400_000;
const PLACES: usize = 4_096;

/// Refused with 10 where it is executed: `small_store` has no P9.
const REFUSED: &str = "$NP P9";

fn report(pair: &mut Pair, template: &str, section: &[u8]) -> Report {
    let store = small_store();
    let call = Call {
        template: template.as_bytes(),
        section,
        buffer: &store,
        length: store.len(),
    };
    pair.report(call, ROOM, PLACES)
}

/// So many passes over some lines, then a line that is refused, which must be the one that is named.
fn repeated(pair: &mut Pair, passes: usize, lines: &str) {
    let template = format!("$SEC A\n$BT {passes}\n{lines}\n$ET\n{REFUSED}\n");
    let end = report(pair, &template, b"A");
    let last = template.lines().count() as u32;
    assert_eq!((end.number, end.line), (10, last), "{template}");
}

#[test]
fn failing_tests_and_skipped_tables_in_a_table() {
    let mut pair = Pair::new(ROOM, PLACES);
    let bodies = [
        "$IF 0\nx\n$ENDIF",
        "$IF 0\nx\n$ELSE\n{LOOP,3}\n$ENDIF",
        "$IF 1\nx\n$ELSE\ny\n$ENDIF",
        "$IFGT LOOP 20\n{LOOP,3}\n$ELSE\ny\n$ENDIF\nz",
        "$IFEQ LOOP 3\nx\n$ELSE\n$IFLT LOOP 3\na\n$ELSE\nb\n$ENDIF\nc\n$ENDIF",
        "$IF 0\n$IF 0\nx\n$ELSE\ny\n$ENDIF\n$ELSE\n$IF 1\nz\n$ELSE\nw\n$ENDIF\n$ENDIF",
        "$BT 0\nx\n$ET",
        "$BT 0\n$BT 3\nx\n$ET\n$ET\n$IF 0\n$BT 2\ny\n$ET\n$ELSE\n$BT -1\n$ET\n$ENDIF",
        "$SETS IV1 1\n$BT IV1\nx\n$ET\n$IF IV1\n$ELSE\ny\n$ENDIF",
        "$BT 3\n$IFNE LOOP 2\n$BT 0\nx\n$ET\n$ELSE\n$BT LOOP\ny\n$ET\n$ENDIF\n$ET",
    ];
    for lines in bodies {
        for passes in [1, 2, 3, 40] {
            repeated(&mut pair, passes, lines);
        }
    }
}

/// A test or table of 64 bytes, so that the places behind its first line share a word with every other's.
fn block(open: &str, close: &str) -> String {
    let filled = "x".repeat(64 - open.len() - close.len() - 3);
    format!("{open}\n{filled}\n{close}\n")
}

#[test]
fn places_that_share_a_word() {
    let mut pair = Pair::new(ROOM, PLACES);
    let kinds = [
        ("$IF 0", "$ENDIF"),
        ("$BT 0", "$ET"),
        ("$IFGT LOOP 2", "$ENDIF"),
        ("$IFNE LOOP 3", "$ELSE\nno\n$ENDIF"),
        ("$BT IV1", "$ET"),
    ];
    for count in [1, 2, 3, 64, 65, 200] {
        for first in 0..kinds.len() {
            let blocks = (0..count).map(|n| kinds[(first + n * (1 + first % 2)) % kinds.len()]);
            let lines: String = blocks.map(|(open, close)| block(open, close)).collect();
            repeated(&mut pair, 5, lines.trim_end());
        }
    }
}

#[test]
fn more_jumping_lines_than_words() {
    let mut pair = Pair::new(ROOM, PLACES);
    for count in [63, 64, 65, 66, 150, 400] {
        let lines: String = (0..count)
            .map(|n| {
                let filled = "x".repeat(n % 23);
                format!(
                    "$IFLT LOOP {}\n{filled}\n$ELSE\n$SETA IV1 1\n$ENDIF\n",
                    n % 7
                )
            })
            .collect();
        repeated(&mut pair, 6, &(lines + "{IV1,9}"));
    }
}

#[test]
fn jumps_in_several_sections() {
    let mut pair = Pair::new(ROOM, PLACES);
    let lines =
        "$BT 9\n$IFLT LOOP 5\n{LOOP,2}\n$ELSE\n$SETA IV1 1\n$ENDIF\n$BT 0\nx\n$ET\n$ET\n{IV1,3}\n";
    let mut template = String::new();
    for name in ["A", "B", "C", "D"] {
        let filled = "x".repeat(template.len() % 13);
        template += &format!("$SEC {name}\n{lines}{filled}\n{lines}");
    }
    template += REFUSED;
    let last = template.lines().count() as u32;
    for name in ["", "A", "B", "D"] {
        let end = report(&mut pair, &template, name.as_bytes());
        let refused = name.is_empty() || name == "D";
        assert_eq!(end.number, if refused { 10 } else { 0 }, "{name}");
        assert_eq!(end.line, if refused { last } else { 0 }, "{name}");
    }
}

/// A question a pass: a stretch of the run has 181, and the next goes on with what is remembered.
#[test]
fn jumps_over_several_stretches() {
    let mut pair = Pair::new(ROOM, PLACES);
    for pass in [1, 2, 180, 181, 182, 183, 300, 362, 363, 500] {
        let template = format!(
            "$SEC A\n$BT 600\n{{P1.LOOP,3}}\n$IFNE LOOP {pass}\n$BT 0\nx\n$ET\n$ELSE\n{REFUSED}\n$ENDIF\n$IF 0\ny\n$ELSE\nz\n$ENDIF\n$ET\n"
        );
        let end = report(&mut pair, &template, b"A");
        assert_eq!(
            (end.number, end.line, end.questions),
            (10, 9, pass + 1),
            "{template}"
        );
    }
}

// ---- any nesting

struct Nested<'r> {
    random: &'r mut Random,
    lines: String,
    left: usize,
}

impl Nested<'_> {
    fn test(&mut self) -> String {
        let n = self.random.below(5);
        match self.random.below(7) {
            0 => "$IF 0".into(),
            1 => "$IFNOT IV1".into(),
            2 => format!("$IFEQ LOOP {n}"),
            3 => format!("$IFNE LOOP {n}"),
            4 => format!("$IFLE IV1 {n}"),
            _ => format!("$IFGT LOOP {n}"),
        }
    }

    fn plain(&mut self) -> String {
        match self.random.below(40) {
            0..=2 => REFUSED.into(),
            3..=4 => "$SETA IV1 1".into(),
            5..=8 => "$SETE IV1 0".into(),
            9..=12 => "{P1.LOOP,3}{P2.1.LOOP,4}".into(),
            _ => "x".repeat(self.random.below(50) as usize),
        }
    }

    fn add(&mut self, line: &str) {
        self.lines += line;
        self.lines += "\n";
    }

    fn block(&mut self, tests: usize, tables: usize) {
        for _ in 0..2 + self.random.below(5) {
            if self.left == 0 {
                return;
            }
            self.left -= 1;
            match self.random.below(8) {
                0..=3 if tests < 10 => {
                    let line = self.test();
                    self.add(&line);
                    self.block(tests + 1, tables);
                    if self.random.below(2) == 0 {
                        self.add("$ELSE");
                        self.block(tests + 1, tables);
                    }
                    self.add("$ENDIF");
                }
                4 if tables < 5 => {
                    let n = self.random.pick(&["0", "-1", "1", "2", "3", "LOOP", "IV1"]);
                    self.add(&format!("$BT {n}"));
                    self.block(tests, tables + 1);
                    self.add("$ET");
                }
                _ => {
                    let line = self.plain();
                    self.add(&line);
                }
            }
        }
    }
}

#[test]
fn any_nesting_of_tests_and_tables_in_a_table() {
    let mut random = Random::new(0x6a75_6d70);
    let mut pair = Pair::new(ROOM, PLACES);
    let (mut finished, mut refused) = (0, 0);
    for round in 0..6_000 {
        let mut nested = Nested {
            random: &mut random,
            lines: "$SEC A\n".into(),
            left: 5 + round % 60,
        };
        for _ in 0..1 + round % 3 {
            nested.add("$BT 12");
            nested.block(0, 1);
            nested.block(0, 1);
            nested.add("$ET");
        }
        let template = nested.lines;
        let end = report(&mut pair, &template, b"");
        finished += u32::from(end.number == 0);
        refused += u32::from(end.number == 10);
    }
    assert!(finished > 1_000 && refused > 500, "{finished} {refused}");
}
