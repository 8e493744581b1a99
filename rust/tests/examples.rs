//! The shipped examples, made, printed and reprinted by the program as a user does.

mod common;

use common::{folder, root, station};
use std::fs;
use std::path::PathBuf;

/// A folder of examples/, a section, its expected sheet; an edit that its read list doesn't touch; one that it does, and what is
/// said of it.
struct Example {
    name: &'static str,
    section: &'static str,
    expected: &'static str,
    untouched: &'static [&'static str],
    touched: &'static [&'static str],
    named: &'static str,
}

const EXAMPLES: [Example; 6] = [
    Example {
        name: "activity",
        section: "LIST",
        expected: "expected-list",
        untouched: &["put", "2", "10", "0", "0", "F", "1.5"],
        touched: &["put", "1", "109", "4", "0", "F", "0.32"],
        named: "P109.4 in datasource 1: was 0.31, is 0.32\n",
    },
    Example {
        name: "identification",
        section: "",
        expected: "expected",
        untouched: &["put", "1", "212", "1", "0", "I", "7"],
        touched: &["put", "1", "204", "21", "0", "I", "14659"],
        named: "P204.21 in datasource 1: was 14658, is 14659\n",
    },
    Example {
        name: "source-term",
        section: "",
        expected: "expected",
        untouched: &["remove", "1", "322", "1", "0"],
        touched: &["put", "1", "107", "5", "0", "I", "42"],
        named: "P107.5 in datasource 1: was 554, is 42\n",
    },
    Example {
        name: "summary",
        section: "",
        expected: "expected",
        untouched: &["put", "4", "40", "1", "1", "F", "1.0"],
        touched: &["put", "2", "42", "7", "2", "S", "!"],
        named: "P42.7.2 in datasource 2: was \"D\", is \"!\"\n",
    },
    Example {
        name: "protocol",
        section: "PROTOCOL",
        expected: "expected",
        untouched: &["put", "2", "23", "0", "0", "F", "1.0"],
        touched: &["remove", "1", "105", "5", "0"],
        named: "P105.5 in datasource 1: was 50.0, is missing\n",
    },
    Example {
        name: "spreadsheet",
        section: "SHEET",
        expected: "expected",
        untouched: &["put", "1", "3", "0", "0", "S", "no matter"],
        touched: &["put", "1", "11", "65", "0", "S", "one more"],
        named: "P11|RECCNT in datasource 1: was 64, is 65\n",
    },
];

/// The template and the store of an example in a folder of the test's own.
fn made(test: &str, example: &Example) -> PathBuf {
    let shipped = root().join("examples").join(example.name);
    let [template, text] = ["template", "store.txt"].map(|f| fs::read(shipped.join(f)).unwrap());
    let name = format!("{test} {}", example.name);
    let folder = folder(&name, &[("template", &template), ("store.txt", &text)]);
    let make = station(&folder, &["store", "make", "store.txt", "before"]);
    assert_eq!(make, (0, String::new(), String::new()));
    folder
}

#[test]
fn each_prints_its_expected_sheet() {
    for example in &EXAMPLES {
        let folder = made("printed", example);
        let said = station(&folder, &["print", "template", "before", example.section]);
        let shipped = root().join("examples").join(example.name);
        let expected = fs::read_to_string(shipped.join(example.expected)).unwrap();
        assert_eq!(said, (0, expected, String::new()), "{}", example.name);
        assert_eq!(station(&folder, &["check", "template"]).0, 0);
    }
}

#[test]
fn each_is_reprinted_after_edits_that_its_read_list_does_and_does_not_touch() {
    for example in &EXAMPLES {
        let folder = made("reprinted", example);
        let edit = |edit: &[&str]| {
            fs::copy(folder.join("before"), folder.join("after")).unwrap();
            let call = [&["store", edit[0], "after"], &edit[1..]].concat();
            assert_eq!(station(&folder, &call), (0, String::new(), String::new()));
            station(
                &folder,
                &["reprint", "template", example.section, "before", "after"],
            )
        };
        let (status, out, err) = edit(example.untouched);
        assert!(out.starts_with("The sheet is the same: "), "{out}");
        assert_eq!((status, err.as_str()), (0, ""), "{}", example.name);
        let (status, out, err) = edit(example.touched);
        assert_eq!(
            (status, out.as_str()),
            (1, example.named),
            "{}",
            example.name
        );
        assert!(err.starts_with("1 question on the read list answers otherwise"));
    }
}
