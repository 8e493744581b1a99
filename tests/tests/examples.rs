//! The shipped examples by the second interpreter and by the library: the expected sheets, reprints after edits, and the
//! activities of SHEET and LIST digit by digit.

use station::{report, Cell, Key, Question, Store, Template, Value};
use station_tests::random::Random;
use station_tests::report::{Call, Pair};
use std::fs;
use std::path::{Path, PathBuf};

/// A folder of examples/, a section, and its expected sheet.
const EXAMPLES: [(&str, &str, &str); 8] = [
    ("activity", "SHEET", "expected"),
    ("activity", "LIST", "expected-list"),
    ("identification", "", "expected"),
    ("source-term", "", "expected"),
    ("summary", "", "expected"),
    ("protocol", "", "expected"),
    ("spreadsheet", "SHEET", "expected"),
    ("spreadsheet", "LIST", "expected-list"),
];

const ROOM: usize = 65_536;
const PLACES: usize = 4_096;

fn file(example: &str, name: &str) -> PathBuf {
    let examples = Path::new(env!("CARGO_MANIFEST_DIR")).join("../examples");
    examples.join(example).join(name)
}

fn text(example: &str, name: &str) -> String {
    fs::read_to_string(file(example, name)).unwrap()
}

fn store(example: &str) -> Store {
    Store::from_text(&text(example, "store.txt")).unwrap()
}

/// The text by both interpreters, which must agree in every number, byte and question.
fn printed(pair: &mut Pair, template: &str, section: &str, store: &Store) -> String {
    let call = Call {
        template: template.as_bytes(),
        section: section.as_bytes(),
        buffer: store.as_bytes(),
        length: store.as_bytes().len(),
    };
    let end = pair.report(call, ROOM, PLACES);
    String::from_utf8(pair.text(&end).to_vec()).unwrap()
}

#[test]
fn every_folder_of_examples_with_a_template_is_here() {
    let mut folders: Vec<String> = fs::read_dir(file("", ""))
        .unwrap()
        .map(|entry| entry.unwrap().file_name().into_string().unwrap())
        .filter(|name| file(name, "template").exists())
        .collect();
    folders.sort();
    let mut named: Vec<&str> = EXAMPLES.iter().map(|(name, ..)| *name).collect();
    named.sort_unstable();
    named.dedup();
    assert_eq!(folders, named);
}

#[test]
fn both_interpreters_print_the_expected_sheets() {
    let mut pair = Pair::new(ROOM, PLACES);
    for (example, section, expected) in EXAMPLES {
        let sheet = printed(
            &mut pair,
            &text(example, "template"),
            section,
            &store(example),
        );
        let expected = text(example, expected);
        // That of the program `sheet` has its closing line too.
        let closed = (example, section) == ("activity", "SHEET");
        let lines = expected.split_inclusive('\n').count() - usize::from(closed);
        let wanted: String = expected.split_inclusive('\n').take(lines).collect();
        assert_eq!(sheet, wanted, "{example} {section}");
    }
}

#[test]
fn the_store_of_the_activity_sheet_is_its_text() {
    let bytes = fs::read(file("activity", "store")).unwrap();
    assert_eq!(store("activity").as_bytes(), bytes);
}

// ---- reprints

/// An edit at or beside a key of the store: another value, another kind, a cell less, a cell more.
fn edit(random: &mut Random, store: &mut Store) {
    let cells: Vec<Cell> = store.cells().collect();
    let mut key = cells[random.below(cells.len() as u64) as usize].key;
    match random.below(6) {
        0 => key.record = (key.record + 1) % 1_000,
        1 => key.entry = (key.entry + 1) % 1_000,
        2 => key.datasource = 1 + random.below(4) as u8,
        3 => key.parameter = 1 + random.below(400) as u16,
        _ => {}
    }
    let value: Value = match random.below(4) {
        0 => (random.below(100) as i32).into(),
        1 => "D".into(),
        2 => station::Decimal::from_millionths(random.below(9_000_000) as i64).into(),
        _ => {
            let _ = store.remove(key);
            return;
        }
    };
    store.put(key, value).unwrap();
}

#[test]
fn a_reprint_is_the_same_sheet_where_the_answers_promise_it() {
    let mut random = Random::new(0x5eed_0021);
    let mut pair = Pair::new(ROOM, PLACES);
    for (example, section, _) in EXAMPLES {
        let (template, before) = (text(example, "template"), store(example));
        let checked = Template::check(&template).unwrap();
        let first = report(&checked, section, &before);
        let (mut promised, mut touched) = (0, 0);
        for _ in 0..150 {
            let mut after = before.clone();
            for _ in 0..=random.below(3) {
                edit(&mut random, &mut after);
            }
            let same = first.reads.iter().all(|q| before.ask(*q) == after.ask(*q));
            let sheet = printed(&mut pair, &template, section, &after);
            let again = report(&checked, section, &after);
            assert_eq!(again.text, sheet);
            if same {
                promised += 1;
                assert_eq!(again, first, "{example} {section}");
            } else {
                touched += 1;
            }
        }
        assert!(
            promised > 10 && touched > 10,
            "{example} {section}: {promised} {touched}"
        );
    }
}

#[test]
fn a_cell_that_is_not_on_the_list_does_not_matter() {
    let mut pair = Pair::new(ROOM, PLACES);
    for (example, section, _) in EXAMPLES {
        let (template, before) = (text(example, "template"), store(example));
        let first = report(&Template::check(&template).unwrap(), section, &before);
        let mut after = before.clone();
        let unseen = |key: Key| !first.reads.contains(&Question::Cell(key));
        for Cell { key, value } in before.cells() {
            // A highest number stays as it is where a cell stays.
            if unseen(key) && value != Value::Integer(77) {
                after.put(key, 77).unwrap();
            }
        }
        after
            .put(
                Key {
                    datasource: 35,
                    ..Key::parameter(9)
                },
                "unseen",
            )
            .unwrap();
        assert_ne!(after, before);
        assert_eq!(printed(&mut pair, &template, section, &after), first.text);
    }
}

// ---- the same activities in SHEET and in LIST

/// The cells of a line as a spreadsheet takes them: split at semicolons, spaces around a number dropped.
fn cells(line: &str) -> Vec<&str> {
    line.split(';').map(str::trim).collect()
}

/// The rows of LIST below its titles: the first cell and the activity's.
fn listed(example: &str, store: &Store) -> Vec<(String, String)> {
    let template = Template::check(text(example, "template")).unwrap();
    let list = report(&template, "LIST", store).text;
    let mut lines = list.lines();
    let titles = cells(lines.next().unwrap());
    let column = titles
        .iter()
        .position(|title| title.starts_with("activity/"));
    let row = |line| {
        let cells = cells(line);
        assert_eq!(cells.len(), titles.len());
        (cells[0].to_owned(), cells[column.unwrap()].to_owned())
    };
    lines.map(row).collect()
}

/// The activity in SHEET's line of a name: the columns from one place to another.
fn sheet_has(sheet: &str, name: &str, from: usize, to: usize) -> String {
    let line = sheet
        .lines()
        .find(|line| line.trim_start_matches('\x0c').starts_with(name));
    line.unwrap()[from..to].trim().to_owned()
}

#[test]
fn sheet_and_list_have_the_same_activities_digit_by_digit() {
    // A folder, the columns of SHEET's activity, the rows of LIST, and how many of these were found: the others are `???` in both.
    let cases = [("activity", 51, 61, 10, 6), ("spreadsheet", 40, 51, 64, 64)];
    for (example, from, to, count, found) in cases {
        let (template, store) = (text(example, "template"), store(example));
        let sheet = report(&Template::check(&template).unwrap(), "SHEET", &store).text;
        let rows = listed(example, &store);
        assert_eq!(rows.len(), count);
        let numbers = rows
            .iter()
            .filter(|(_, digits)| digits.parse::<f64>().is_ok());
        assert_eq!(numbers.count(), found);
        for (name, digits) in rows {
            let printed = sheet_has(&sheet, &format!("{name} "), from, to);
            assert_eq!(printed, digits, "{example} {name}");
            assert!(digits == "???" || digits.parse::<f64>().is_ok(), "{digits}");
        }
    }
}

#[test]
fn form_feeds_are_off_in_lists() {
    for example in ["activity", "spreadsheet"] {
        let template = Template::check(text(example, "template")).unwrap();
        let (sheet, list) = ("SHEET", "LIST");
        assert!(report(&template, sheet, &store(example))
            .text
            .contains('\x0c'));
        assert!(!report(&template, list, &store(example))
            .text
            .contains('\x0c'));
    }
}
