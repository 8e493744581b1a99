//! The program `sheet`, as `rt ci` links it: what it prints beside the second interpreter's report, and what it says of files that
//! it can't read.

use second::{report, Question};
use station_tests::sheets::{sheets, small_store, Sheet, STORE, TEMPLATE};
use station_tests::store::decimals;
use std::fs;
use std::io::Write;
use std::path::{Path, PathBuf};
use std::process::{Command, Output, Stdio};

const PROGRAM: &str = concat!(env!("CARGO_MANIFEST_DIR"), "/../target/bin/sheet");

/// A fresh folder of a test's own, with the files given.
fn folder(name: &str, files: &[(&str, &[u8])]) -> PathBuf {
    let folder = Path::new(env!("CARGO_TARGET_TMPDIR")).join(name);
    let _ = fs::remove_dir_all(&folder);
    fs::create_dir_all(&folder).unwrap();
    for (file, bytes) in files {
        fs::write(folder.join(file), bytes).unwrap();
    }
    folder
}

fn sheet(folder: &Path, input: &[u8]) -> Output {
    let mut child = Command::new(PROGRAM)
        .current_dir(folder)
        .stdin(Stdio::piped())
        .stdout(Stdio::piped())
        .stderr(Stdio::piped())
        .spawn()
        .expect("target/bin/sheet, where .ci/run puts crates/sheet/out/sheet");
    // A program that ends early doesn't read its input.
    let _ = child.stdin.take().unwrap().write_all(input);
    child.wait_with_output().unwrap()
}

/// The text and the closing line, by the second interpreter.
fn expected(template: &[u8], section: &[u8], store: &[u8]) -> Vec<u8> {
    let mut text = vec![0; 65_536];
    let mut reads = vec![Question::default(); 4_096];
    let end = report(template, section, store, store.len(), &mut text, &mut reads);
    text.truncate(end.text_bytes);
    let closing = format!(
        "{} {} {} {} {}\n",
        end.number, end.line, end.pages, end.text_bytes, end.questions
    );
    text.extend(closing.bytes());
    text
}

/// The program prints what the second interpreter's report says, and no message.
fn agrees(name: &str, template: &[u8], input: &[u8], store: &[u8]) {
    let folder = folder(name, &[("template", template), ("store", store)]);
    let output = sheet(&folder, input);
    let section = input.split(|&b| b == b'\n').next().unwrap();
    assert_eq!(
        String::from_utf8_lossy(&output.stdout),
        String::from_utf8_lossy(&expected(template, section, store)),
        "{name}"
    );
    assert!(
        output.stderr.is_empty() && output.status.success(),
        "{name}"
    );
}

#[test]
fn the_shipped_example_prints_what_is_expected() {
    let example = Path::new(env!("CARGO_MANIFEST_DIR")).join("../examples/activity");
    let output = sheet(&example, b"SHEET\n");
    assert_eq!(output.stdout, fs::read(example.join("expected")).unwrap());
}

#[test]
fn sheets_are_those_of_the_second_interpreter() {
    for (n, s) in sheets().iter().enumerate() {
        let Sheet {
            template,
            section,
            store,
        } = s;
        let line = [section, &b"\nmore"[..]].concat();
        agrees(&format!("sheet{n}"), template, &line, store);
    }
}

#[test]
fn names_of_any_bytes_and_any_length() {
    let template = b"$SEC ABCDEFGH1\nlong\n$SEC A\nshort\n";
    let names: [&[u8]; 9] = [
        b"",
        b"\n",
        b"A",
        b"A\nB",
        b"ABCDEFGH",
        b"ABCDEFGHIJKLMNOPQRSTUVWXYZ\n",
        b"ABCDEFG\n",
        b"A\0\n",
        b"\xff\xfe",
    ];
    for (n, name) in names.iter().enumerate() {
        agrees(&format!("name{n}"), template, name, b"");
    }
    let long = [&b"ABCDEFGH"[..], &[b'x'; 100_000]].concat();
    agrees("long name", template, &long, b"");
}

#[test]
fn files_at_their_limits_and_past_them() {
    for length in [32_768, 32_769, 32_770, 100_000] {
        let mut template = b"$SEC A\n".to_vec();
        template.resize(length, b'\n');
        agrees(
            &format!("template{length}"),
            &template,
            b"A",
            &small_store(),
        );
    }
    let cells: Vec<u8> = STORE.iter().copied().cycle().take(70_000).collect();
    for length in [65_536, 65_537, 70_000] {
        agrees(
            &format!("store{length}"),
            TEMPLATE,
            b"LIST",
            &cells[..length],
        );
    }
    // A store in form of exactly 65,536 bytes, and one cell more.
    let last = b"$SEC A\n$SETDS 26\n{P96,12}{P97.1.1,12}\n";
    for (cells, printed) in [
        (4_096, &b" 4095.004095???         \n0 0 1 25 2\n"[..]),
        (4_097, b"1 0 0 0 0\n"),
    ] {
        let (name, store) = (format!("decimals{cells}"), decimals(cells));
        agrees(&name, last, b"A", &store);
        assert_eq!(expected(last, b"A", &store), printed);
    }
    agrees("both", &[b'x'; 40_000], b"A", &cells);
    agrees("empty", b"", b"", b"");
    // A sheet that fills the text, and a read list that is too short.
    agrees("full", b"$SEC A\n$BT 9000\nten bytes.\n$ET", b"A", b"");
    agrees(
        "places",
        b"$SEC A\n$BT 5000\n{P1,3}\n$ET",
        b"A",
        &small_store(),
    );
}

#[test]
fn files_that_cannot_be_read_are_a_message_and_nothing_on_standard_output() {
    let both: [(&str, &[u8]); 2] = [("template", TEMPLATE), ("store", STORE)];
    for missing in [0, 1] {
        let name = both[missing].0;
        let bare = folder(&format!("no {name}"), &both[1 - missing..][..1]);
        let output = sheet(&bare, b"SHEET\n");
        assert!(output.stdout.is_empty());
        assert!(String::from_utf8_lossy(&output.stderr).contains(name));
        let instead = folder(&format!("folder {name}"), &both[1 - missing..][..1]);
        fs::create_dir(instead.join(name)).unwrap();
        let output = sheet(&instead, b"SHEET\n");
        assert!(output.stdout.is_empty());
        assert!(String::from_utf8_lossy(&output.stderr).contains(name));
    }
}
