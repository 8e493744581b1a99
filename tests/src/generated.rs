//! Templates and stores made at random: every command, nested tests and tables, headings, several sections. Most are
//! accepted and run for a while; what they are then damaged by is here too.

use crate::random::Random;
use crate::store::cell;
use second::Value;
use std::fmt::Write;

/// Parameters of the stores: integers, decimals, strings, any of the three.
const INTEGERS: u16 = 1;
const DECIMALS: u16 = 2;
const STRINGS: u16 = 3;
const MIXED: u16 = 4;

/// What an argument should be, mostly.
#[derive(Clone, Copy, PartialEq)]
enum Kind {
    Integer,
    Number,
    String,
    Any,
}

/// A template as it grows.
pub struct Template<'r> {
    random: &'r mut Random,
    lines: String,
    tests: usize,
    tables: usize,
    /// Lines that may still be added.
    left: usize,
    /// How many in 1,000 arguments are of any kind, whatever is asked for.
    wild: u64,
}

impl Template<'_> {
    fn chance(&mut self, per_thousand: u64) -> bool {
        self.random.below(1_000) < per_thousand
    }

    fn index(&mut self) -> String {
        match self.random.below(12) {
            0 => format!("{:03}", self.random.below(5)),
            1 if self.tables > 0 => "LOOP".into(),
            2 if self.tables > 0 => "LOOP".into(),
            3 => format!("IV{}", 1 + self.random.below(4)),
            4 if self.chance(self.wild) => self.random.pick(&["999", "IV9", "998"]).into(),
            _ => format!("{}", self.random.below(5)),
        }
    }

    fn cell(&mut self, parameter: u16) -> String {
        match self.random.below(3) {
            0 => format!("P{parameter}"),
            1 => format!("P{parameter}.{}", self.index()),
            _ => format!("P{parameter}.{}.{}", self.index(), self.index()),
        }
    }

    fn integer_literal(&mut self) -> String {
        match self.random.below(8) {
            0 => self
                .random
                .pick(&[
                    "2000000000",
                    "-2000000000",
                    "1999999999",
                    "-0",
                    "0000000007",
                ])
                .into(),
            1 | 2 => format!("-{}", self.random.below(100)),
            3 => format!("{}", self.random.below(100_000)),
            _ => format!("{}", self.random.below(10)),
        }
    }

    fn decimal_literal(&mut self) -> String {
        match self.random.below(6) {
            0 => self
                .random
                .pick(&[
                    "0.000001",
                    "-0.5",
                    "1999999999.999999",
                    "-2000000000.000000",
                    "0.0",
                    "00.5",
                ])
                .into(),
            _ => {
                let places = 1 + self.random.below(6) as usize;
                let whole = self.random.any_length(99_999);
                let part = self.random.below(10_u64.pow(places as u32));
                format!("{whole}.{part:0places$}")
            }
        }
    }

    fn string_literal(&mut self) -> String {
        self.random
            .pick(&[
                "\"\"",
                "\"Cs-137\"",
                "\"cs\"",
                "\"}{\"",
                "\"sixteen bytes ok\"",
                "\"a b\"",
                "\"|,\"",
                "\" \"",
            ])
            .into()
    }

    /// An argument without a filter.
    fn bare(&mut self, kind: Kind) -> String {
        let kind = if self.chance(self.wild) {
            Kind::Any
        } else {
            kind
        };
        let pick = self.random.below(10);
        match kind {
            Kind::Integer => match pick {
                0 | 1 => self.integer_literal(),
                2 => "LOOP".into(),
                3 => self.random.pick(&["PAGENUM", "LINENUM"]).into(),
                4 | 5 if self.chance(self.wild * 8) => self.cell(INTEGERS),
                6 if self.tables > 0 => self.random.pick(&["R1", "T1"]).into(),
                _ => format!("IV{}", 1 + self.random.below(4)),
            },
            Kind::Number => match pick {
                0 | 1 => self.decimal_literal(),
                2 if self.chance(self.wild * 8) => self.cell(DECIMALS),
                3 if self.tables > 0 => self.random.pick(&["R2", "T2"]).into(),
                4..=6 => format!("FV{}", 1 + self.random.below(4)),
                _ => self.bare(Kind::Integer),
            },
            Kind::String => match pick {
                0..=3 => self.string_literal(),
                4 if self.chance(self.wild * 8) => self.cell(STRINGS),
                5 if self.tables > 0 => self.random.pick(&["R3", "T3"]).into(),
                _ => format!("SV{}", 1 + self.random.below(4)),
            },
            Kind::Any => match pick {
                0 => self.integer_literal(),
                1 => self.decimal_literal(),
                2 => self.string_literal(),
                3 => self.cell(INTEGERS),
                4 => self.cell(DECIMALS),
                5 => self.cell(STRINGS),
                6 => self.cell(MIXED),
                7 => self
                    .random
                    .pick(&["R1", "R2", "R3", "R10", "T1", "T2", "T3", "T10"])
                    .into(),
                8 => self
                    .random
                    .pick(&["IV99", "FV99", "SV99", "PAGENUM", "LINENUM", "LOOP"])
                    .into(),
                _ => self.cell(5),
            },
        }
    }

    fn argument(&mut self, kind: Kind) -> String {
        match (self.random.below(14), kind) {
            (0, Kind::Number) => self.bare(Kind::Number) + "|ABS",
            (0 | 1, Kind::Integer) => self.bare(Kind::Number) + "|INT",
            (2, Kind::Integer) => self.bare(Kind::String) + "|LEN",
            (3, Kind::Integer | Kind::Number) => {
                format!("P{}|RECCNT", 1 + self.random.below(5))
            }
            (4, Kind::Integer | Kind::Number) => {
                format!("P{}.{}|ENTCNT", 1 + self.random.below(5), self.index())
            }
            (0, Kind::String) => self.bare(Kind::String) + "|UPPER",
            (0, Kind::Any) => {
                let filter = self.random.pick(&["|ABS", "|INT", "|UPPER", "|LEN"]);
                self.bare(Kind::Any) + filter
            }
            _ => self.bare(kind),
        }
    }

    /// A text with fields, at most so many bytes when they are filled.
    fn text(&mut self, most: usize) -> String {
        let mut text = String::new();
        let mut width = 0;
        for _ in 0..self.random.below(5) {
            let words =
                self.random
                    .pick(&["", "x", "Activity ", " ", "Bq/kg", "|", "---", "a,b ", "\""]);
            let w = match self.random.below(4) {
                0 => 1 + self.random.below(32),
                _ => 1 + self.random.below(10),
            } as usize;
            let places = self
                .random
                .pick(&["", "", "", ".0", ".1", ".2", ".3", ".6"]);
            let argument = self.argument(Kind::Any);
            let field = format!("{{{argument},{w}{places}}}");
            width += words.len() + w.max(field.len());
            if width > most {
                break;
            }
            text += words;
            if self.random.below(5) != 0 {
                text += &field;
            }
        }
        text
    }

    fn push(&mut self, line: &str) {
        self.lines.push_str(line);
        self.lines.push('\n');
        self.left = self.left.saturating_sub(1);
    }

    fn set(&mut self) {
        let n = 1 + self.random.below(4);
        let line = match self.random.below(9) {
            0..=3 => {
                let word = self
                    .random
                    .pick(&["$SETE", "$SETA", "$SETS", "$SETM", "$SETD"]);
                let argument = match word {
                    "$SETD" if !self.chance(self.wild) => format!("{}", 1 + self.random.below(9)),
                    "$SETM" => format!("{}", self.random.below(7)),
                    _ => self.argument(Kind::Integer),
                };
                format!("{word} IV{n} {argument}")
            }
            4..=6 => {
                let word = self
                    .random
                    .pick(&["$SETE", "$SETA", "$SETS", "$SETM", "$SETD"]);
                let argument = match word {
                    "$SETD" if !self.chance(self.wild * 3) => {
                        format!("{}.5", self.random.below(9))
                    }
                    "$SETM" => format!("0.{}", self.random.below(999)),
                    _ => self.argument(Kind::Number),
                };
                format!("{word} FV{n} {argument}")
            }
            _ => format!("$SETE SV{n} {}", self.argument(Kind::String)),
        };
        self.push(&line);
    }

    fn test(&mut self) -> String {
        match self.random.below(4) {
            0 => {
                let word = self.random.pick(&["$IF", "$IFNOT"]);
                format!("{word} {}", self.argument(Kind::Number))
            }
            1 | 2 => {
                let word = self
                    .random
                    .pick(&["$IFEQ", "$IFNE", "$IFLT", "$IFLE", "$IFGT", "$IFGE"]);
                let first = self.argument(Kind::Number);
                format!("{word} {first} {}", self.argument(Kind::Number))
            }
            _ => {
                let word = self.random.pick(&["$IFEQSS", "$IFEQSI"]);
                let first = self.argument(Kind::String);
                format!("{word} {first} {}", self.argument(Kind::String))
            }
        }
    }

    fn line(&mut self) {
        let line = match self.random.below(22) {
            0..=4 => return self.set(),
            5 => {
                let word = self.random.pick(&["$REC", "$TBL"]);
                let n = 1 + self.random.below(3);
                let (record, entry) = (self.index(), self.index());
                let count = match self.random.below(9) {
                    0 => self.index(),
                    1 if self.chance(self.wild) => self.random.pick(&["64", "65", "064"]).into(),
                    _ => format!("{}", self.random.below(6)),
                };
                format!("{word} {n} P{n} {record} {entry} {count}")
            }
            6 => self
                .random
                .pick(&["$NP", "$NP 2", "$NP 30", "$NP LINENUM", "$NP 61", "$NP -1"])
                .into(),
            7 if self.chance(300) => "$NOFF".into(),
            8 => match self.random.below(6) {
                0 if self.chance(self.wild) => "$SETDS IV1".into(),
                n => format!("$SETDS {}", [1, 1, 2, 2, 35, 1][n as usize]),
            },
            9 | 10 => {
                let n = self.random.pick(&["", "1", "2", "3", "9"]);
                match self.random.below(6) {
                    0 => format!("$PH{n}"),
                    1 => format!("$PH{n} "),
                    _ => format!("$PH{n} {}", self.text(100)),
                }
            }
            11 => self
                .random
                .pick(&["$REM", "$REM {any} \"text", "$REM "])
                .into(),
            12 => String::new(),
            _ => match self.text(120) {
                text if text.starts_with('$') => String::new(),
                text => text,
            },
        };
        self.push(&line);
    }

    fn block(&mut self) {
        for _ in 0..self.random.below(7) {
            if self.left == 0 {
                return;
            }
            match self.random.below(10) {
                0 if self.tests < 10 => {
                    let test = self.test();
                    self.push(&test);
                    self.tests += 1;
                    self.block();
                    if self.random.below(2) == 0 {
                        self.push("$ELSE");
                        self.block();
                    }
                    self.tests -= 1;
                    self.push("$ENDIF");
                }
                1 | 2 if self.tables < 5 => {
                    let n = match self.random.below(12) {
                        0 => self.argument(Kind::Integer),
                        1 => "61".into(),
                        2 => "0".into(),
                        _ => format!("{}", self.random.below(6)),
                    };
                    self.push(&format!("$BT {n}"));
                    self.tables += 1;
                    self.block();
                    let k = match self.random.below(9) {
                        0 => format!(" {}", 1 + self.random.below(3)),
                        1 => " LOOP".into(),
                        2 if self.chance(self.wild) => format!(" {}", self.argument(Kind::Integer)),
                        _ => String::new(),
                    };
                    self.tables -= 1;
                    self.push(&format!("$ET{k}"));
                }
                _ => self.line(),
            }
        }
    }
}

/// The names of sections, and one that is another's by its first eight characters.
const NAMES: &[&str] = &["A", "B", "SHEET", "ABCDEFGH1", "0", "A1"];
const AGAIN: &str = "ABCDEFGH2";

/// A template of about so many lines.
pub fn template(random: &mut Random, lines: usize) -> Vec<u8> {
    let wild = random.pick(&[0, 10, 40, 120]);
    let mut t = Template {
        random,
        lines: String::new(),
        tests: 0,
        tables: 0,
        left: lines,
        wild,
    };
    if t.random.below(4) == 0 {
        t.push("$REM before the first section");
    }
    let sections = 1 + t.random.below(3) as usize;
    let first = t.random.below(NAMES.len() as u64) as usize;
    for k in 0..sections {
        let name = match t.random.below(60) {
            0 => AGAIN,
            1 => NAMES[first],
            _ => NAMES[(first + k) % NAMES.len()],
        };
        t.left = lines / sections + 1;
        t.push(&format!("$SEC {name}"));
        while t.left > 0 {
            t.block();
            if t.random.below(40) == 0 {
                break;
            }
        }
    }
    if t.random.below(3) == 0 {
        t.lines.pop();
    }
    t.lines.into_bytes()
}

/// A template that runs into 50,000 lines, or just not.
pub fn long_run(random: &mut Random) -> Vec<u8> {
    let mut lines = String::from("$SEC A\n");
    let (outer, inner) = (random.below(300) + 100, random.below(120) + 50);
    let _ = write!(
        lines,
        "$BT {outer}\n$BT {inner}\n$SETA IV1 1\n$ET\n$IFEQ LOOP 99\n{{IV1,7}}\n$ENDIF\n$ET\n"
    );
    lines.into_bytes()
}

/// A name to ask for: mostly one that is there, or all sections.
pub fn section(random: &mut Random, template: &[u8]) -> Vec<u8> {
    let names: Vec<&[u8]> = template
        .split(|&b| b == b'\n')
        .filter_map(|line| line.strip_prefix(b"$SEC "))
        .collect();
    match random.below(40) {
        0 => b"NONE".to_vec(),
        1 => vec![0xff; 9],
        2..=14 => Vec::new(),
        _ if names.is_empty() => Vec::new(),
        _ => names[random.below(names.len() as u64) as usize].to_vec(),
    }
}

/// A store that has most of the cells that the templates name.
pub fn store(random: &mut Random) -> Vec<u8> {
    let share = random.pick(&[100, 100, 95, 80, 40, 0]);
    let mut bytes = Vec::new();
    for datasource in [1, 2, 35] {
        if datasource != 1 && random.below(3) != 0 {
            continue;
        }
        for parameter in 1..=4 {
            let (records, entries) = match random.below(16) {
                0 => (6, 6),
                _ => (random.below(3), 1 + random.below(2)),
            };
            for record in 0..records as u16 {
                for entry in 0..entries as u16 {
                    if random.below(100) < share {
                        let value = value(random, parameter);
                        bytes.extend(cell([datasource, parameter, record, entry], &value));
                    }
                }
            }
        }
    }
    bytes
}

fn value(random: &mut Random, parameter: u16) -> Value {
    match parameter {
        INTEGERS => Value::Integer(match random.below(6) {
            0 => random.any_length(2_000_000_000),
            1 => 0,
            _ => random.below(1_200) as i64,
        }),
        DECIMALS => Value::Decimal(random.any_length(2_000_000_000_000_000)),
        STRINGS => Value::String(
            random
                .pick(&["", "Cs-137", "co-60", "sixteen bytes ok", " x ", "{LOOP,3}"])
                .into(),
        ),
        _ => {
            let other = random.pick(&[INTEGERS, DECIMALS, STRINGS]);
            value(random, other)
        }
    }
}

/// Changes, adds, drops or doubles some bytes.
pub fn damage(random: &mut Random, bytes: &mut Vec<u8>) {
    for _ in 0..=random.below(3) {
        let at = random.below(bytes.len() as u64 + 1) as usize;
        let byte = match random.below(5) {
            0 => random.word() as u8,
            _ => random.pick(b"${}\"0|. \nI1"),
        };
        match random.below(5) {
            0 => bytes.insert(at, byte),
            1 | 2 if at < bytes.len() => bytes[at] = byte,
            3 if at < bytes.len() => drop(bytes.remove(at)),
            _ => {
                let end = (at + random.below(40) as usize).min(bytes.len());
                let part = bytes[at..end].to_vec();
                let to = random.below(bytes.len() as u64 + 1) as usize;
                match random.below(2) {
                    0 => drop(bytes.splice(to..to, part)),
                    _ => drop(bytes.drain(at..end)),
                }
            }
        }
    }
}

/// A case: what a report is handed, and how much it is lent.
pub struct Case {
    pub template: Vec<u8>,
    pub section: Vec<u8>,
    pub buffer: Vec<u8>,
    pub length: usize,
    pub room: usize,
    pub places: usize,
}

/// The most that a case is lent.
pub const MOST_ROOM: usize = 65_536;
pub const MOST_PLACES: usize = 4_096;

/// The next case: short or long, as it came or damaged, with room to spare or not.
pub fn case(random: &mut Random) -> Case {
    let mut template = match random.below(4_000) {
        0 => long_run(random),
        1..=4 => template(random, 600),
        5..=80 => template(random, 100),
        n => template(random, 2 + n as usize % 20),
    };
    let section = section(random, &template);
    let mut buffer = store(random);
    if random.below(4) == 0 {
        damage(random, &mut template);
    }
    if random.below(12) == 0 {
        damage(random, &mut buffer);
    }
    let mut length = buffer.len();
    match random.below(40) {
        0 => length = random.pick(&[0, length.saturating_sub(1), length + 1, usize::MAX]),
        1..=20 => buffer.extend([0xa5; 20]),
        _ => {}
    }
    let room = match random.below(6) {
        0 => random.below(40) as usize,
        1 => random.below(600) as usize,
        _ => random.pick(&[2_000, 6_000, 6_000, MOST_ROOM]),
    };
    let places = match random.below(6) {
        0 => random.below(6) as usize,
        1 => random.below(60) as usize,
        _ => random.pick(&[200, 500, MOST_PLACES]),
    };
    Case {
        template,
        section,
        buffer,
        length,
        room,
        places,
    }
}
