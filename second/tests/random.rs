//! Generated and damaged templates and stores, from a fixed seed.

mod common;
use common::*;
use second::{check, put, remove};

/// A small generator of its own (xorshift).
struct Random(u64);

impl Random {
    fn next(&mut self) -> u64 {
        self.0 ^= self.0 << 13;
        self.0 ^= self.0 >> 7;
        self.0 ^= self.0 << 17;
        self.0
    }

    /// A number below a bound.
    fn below(&mut self, bound: usize) -> usize {
        (self.next() >> 11) as usize % bound
    }

    fn one_of<'a>(&mut self, choices: &[&'a str]) -> &'a str {
        choices[self.below(choices.len())]
    }
}

fn index(random: &mut Random) -> &'static str {
    random.one_of(&["0", "1", "2", "003", "999", "IV1", "IV2", "LOOP"])
}

fn argument(random: &mut Random) -> String {
    let source = match random.below(6) {
        0 => random
            .one_of(&["0", "-7", "2000000000", "1.5", "-0.000001", "00.5"])
            .to_string(),
        1 => random
            .one_of(&["\"\"", "\"Cs-137\"", "\"}{\"", "SV1", "SV2"])
            .to_string(),
        2 => random
            .one_of(&["IV1", "IV2", "FV1", "FV2", "R1", "T1"])
            .to_string(),
        3 => random
            .one_of(&["PAGENUM", "LINENUM", "LOOP", "P1", "P2"])
            .to_string(),
        4 => format!("P1.{}", index(random)),
        _ => format!("P2.{}.{}", index(random), index(random)),
    };
    let filter = match random.below(12) {
        0 => random.one_of(&["|ABS", "|INT"]),
        1 => random.one_of(&["|UPPER", "|LEN"]),
        2 => {
            return random
                .one_of(&["P1|RECCNT", "P1.1|ENTCNT", "P2.LOOP|ENTCNT"])
                .to_string()
        }
        _ => "",
    };
    source + filter
}

fn text(random: &mut Random) -> String {
    let mut text = random.one_of(&["", "x", "Activity ", " "]).to_string();
    for _ in 0..random.below(3) {
        let places = random.one_of(&["", ".0", ".2", ".6"]);
        text += &format!("{{{},{}{places}}}", argument(random), 1 + random.below(32));
    }
    text
}

fn command(random: &mut Random) -> String {
    match random.below(10) {
        0 | 1 => {
            let word = random.one_of(&["$SETE", "$SETA", "$SETS", "$SETM", "$SETD"]);
            let variable = random.one_of(&["IV1", "IV2", "FV1", "FV2"]);
            format!("{word} {variable} {}", argument(random))
        }
        2 => format!(
            "$SETE SV1 {}",
            random.one_of(&["\"Co\"", "SV2", "P2.1.1", "\"a\"|UPPER"])
        ),
        3 => {
            let word = random.one_of(&["$REC", "$TBL"]);
            let (record, entry) = (index(random), index(random));
            format!(
                "{word} 1 P{} {record} {entry} {}",
                1 + random.below(2),
                random.below(5)
            )
        }
        4 => random
            .one_of(&["$NP", "$NP 30", "$NP LINENUM", "$NOFF", "$REM x"])
            .to_string(),
        5 => format!("$SETDS {}", random.one_of(&["1", "2", "35", "IV1"])),
        6 => format!("$PH{} {}", 1 + random.below(3), text(random)),
        _ => text(random),
    }
}

/// A block of lines with tests and tables in it.
fn block(random: &mut Random, depth: usize) -> String {
    let mut lines = String::new();
    for _ in 0..random.below(6) {
        match random.below(8) {
            0 if depth > 0 => {
                let test = match random.below(3) {
                    0 => format!("$IF {}", argument(random)),
                    1 => format!("$IFLT {} {}", argument(random), argument(random)),
                    _ => format!("$IFEQSI SV1 {}", argument(random)),
                };
                let (yes, no) = (block(random, depth - 1), block(random, depth - 1));
                lines += &format!("{test}\n{yes}$ELSE\n{no}$ENDIF\n");
            }
            1 if depth > 0 => {
                let count = random.one_of(&["0", "2", "7", "70", "IV1"]);
                let step = random.one_of(&["", " 1", " 3", " LOOP"]);
                lines += &format!("$BT {count}\n{}$ET{step}\n", block(random, depth - 1));
            }
            _ => lines += &(command(random) + "\n"),
        }
    }
    lines
}

fn template(random: &mut Random) -> Vec<u8> {
    let (a, b) = (block(random, 3), block(random, 2));
    format!("$REM\n$SEC A\n{a}$SEC B\n{b}").into_bytes()
}

fn cell(random: &mut Random) -> Vec<u8> {
    let at = (
        1 + random.below(2) as u16,
        random.below(4) as u16,
        random.below(3) as u16,
    );
    match random.below(3) {
        0 => integer(at, random.below(2_000_000_000) as i32 - 1_000_000_000),
        1 => decimal(at, random.below(4_000_000) as i64 - 2_000_000),
        _ => string(at, random.one_of(&["", "Cs-137", "co-60"])),
    }
}

/// Changes, adds or drops a byte here and there.
fn damage(random: &mut Random, bytes: &mut Vec<u8>) {
    for _ in 0..random.below(3) {
        let at = random.below(bytes.len() + 1);
        let byte = random
            .one_of(&["$", "{", "}", "\"", "0", "|", " ", "\n", "\x7F", "I"])
            .as_bytes()[0];
        match random.below(3) {
            0 => bytes.insert(at, byte),
            1 if at < bytes.len() => bytes[at] = byte,
            _ if at < bytes.len() => drop(bytes.remove(at)),
            _ => {}
        }
    }
}

/// What every report keeps to, whatever it was handed.
fn sound(template: &[u8], section: &[u8], store: &[u8], bytes: usize, places: usize) -> u32 {
    let first = lent(template, section, store, bytes, places);
    let end = first.end;
    assert!(end.number <= 14);
    assert_eq!(end.pages == 0, (1..=6).contains(&end.number));
    assert_eq!(
        end.line == 0,
        [0, 1, 6].contains(&end.number) || template.len() > 32_768
    );
    if end.number != 1 {
        let checks = check(template, section);
        let expected = if end.number <= 6 {
            first.ends()
        } else {
            (0, 0)
        };
        assert_eq!(checks, expected);
    }
    assert_eq!(lent(template, section, store, bytes, places), first);
    end.number
}

#[test]
fn generated_and_damaged_inputs_never_break_a_rule_of_reports() {
    let mut random = Random(0x5EED_0001);
    let mut seen = [0; 15];
    for round in 0..1_500 {
        let cells: Vec<Vec<u8>> = (0..random.below(12)).map(|_| cell(&mut random)).collect();
        let mut store = store(&cells);
        let mut template = template(&mut random);
        if round % 3 == 1 {
            damage(&mut random, &mut template);
        }
        if round % 10 == 2 {
            damage(&mut random, &mut store);
        }
        let section = random.one_of(&["", "A", "B", "A", "B", "C"]);
        let bytes = random
            .one_of(&["0", "40", "400", "9000", "9000"])
            .parse()
            .unwrap();
        let places = random.one_of(&["0", "5", "500", "500"]).parse().unwrap();
        let number = sound(&template, section.as_bytes(), &store, bytes, places);
        seen[number as usize] += 1;
    }
    // The rounds reach success and most refusals.
    for number in [0, 1, 2, 3, 4, 6, 8, 9, 10, 11, 12, 14] {
        assert!(seen[number] > 0, "{number} in {seen:?}");
    }
}

#[test]
fn any_bytes_are_a_template_a_name_and_a_store() {
    let mut random = Random(0x5EED_0002);
    let mut bytes = |most: usize| -> Vec<u8> {
        let count = random.below(most);
        (0..count).map(|_| random.next() as u8).collect()
    };
    for _ in 0..2_000 {
        let (template, section, store) = (bytes(60), bytes(10), bytes(40));
        sound(&template, &section, &store, 100, 10);
        sound(&template, &section, &[], 100, 10);
        let (mut buffer, cell, key) = (bytes(40), bytes(30), bytes(9));
        let before = buffer.clone();
        let length = buffer.len();
        for edited in [
            put(&mut buffer, length, &cell),
            remove(&mut buffer, length, &key),
        ] {
            assert!([0, 1, 15, 16, 17].contains(&edited.number));
        }
        assert!(buffer == before || second::store::in_form(&before, length));
    }
}

#[test]
fn edits_keep_the_stores_form_and_answer_as_a_plain_list_does() {
    let mut random = Random(0x5EED_0003);
    let mut buffer = vec![UNTOUCHED; 300];
    let mut length = 0;
    let mut list: Vec<Vec<u8>> = Vec::new();
    for _ in 0..3_000 {
        let cell = cell(&mut random);
        let key = cell[1..8].to_vec();
        let place = list.iter().position(|old| old[1..8] == key);
        let removes = random.below(2) == 0;
        let edited = match removes {
            true => remove(&mut buffer, length, &key),
            false => put(&mut buffer, length, &cell),
        };
        let mut after = list.clone();
        if let Some(place) = place {
            after.remove(place);
        }
        if !removes {
            after.push(cell);
        }
        after.sort_by(|a, b| a[1..8].cmp(&b[1..8]));
        let number = match removes {
            true if place.is_none() => 17,
            false if after.concat().len() > buffer.len() => 16,
            _ => 0,
        };
        assert_eq!(edited.number, number);
        if number == 0 {
            list = after;
            length = edited.length;
        }
        assert_eq!(edited.length, length);
        assert_eq!(buffer[..length], list.concat());
    }
}
