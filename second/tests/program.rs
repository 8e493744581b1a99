//! The programs `sheet` and `mkstore`, and the example that is shipped.

use std::fs;
use std::io::Write;
use std::path::{Path, PathBuf};
use std::process::{Command, Output, Stdio};

fn example() -> PathBuf {
    Path::new(env!("CARGO_MANIFEST_DIR")).join("../examples/activity")
}

/// Runs a program in a folder with some standard input.
fn run(program: &str, folder: &Path, input: &[u8]) -> Output {
    let mut child = Command::new(program)
        .current_dir(folder)
        .stdin(Stdio::piped())
        .stdout(Stdio::piped())
        .stderr(Stdio::piped())
        .spawn()
        .unwrap();
    // A program that ends early doesn't read its input.
    let _ = child.stdin.take().unwrap().write_all(input);
    child.wait_with_output().unwrap()
}

fn sheet(folder: &Path, input: &[u8]) -> Output {
    run(env!("CARGO_BIN_EXE_sheet"), folder, input)
}

fn mkstore(input: &[u8]) -> Output {
    run(env!("CARGO_BIN_EXE_mkstore"), &example(), input)
}

/// A fresh folder of a test's own, with the files given.
fn folder(name: &str, files: &[(&str, &[u8])]) -> PathBuf {
    let folder = Path::new(env!("CARGO_TARGET_TMPDIR")).join(name);
    let _ = fs::remove_dir_all(&folder);
    fs::create_dir_all(&folder).unwrap();
    for (file, bytes) in files {
        fs::write(folder.join(file), bytes).unwrap();
    }
    folder
}

/// What `sheet` prints for a template over an empty store.
fn printed(name: &str, template: &[u8], input: &[u8]) -> String {
    let folder = folder(name, &[("template", template), ("store", b"")]);
    let output = sheet(&folder, input);
    assert!(output.status.success());
    String::from_utf8(output.stdout).unwrap()
}

const SAMPLE: &[u8] = b"$SEC A\n$SETE FV1 2\n$SETD FV1 3\n$IF IV1\nX\n$ELSE\nr={FV1,6.2}\n$ENDIF\n";

#[test]
fn sheet_prints_the_sample_and_its_closing_line() {
    assert_eq!(printed("sample", SAMPLE, b"A"), "r=  0.67\n0 0 1 9 0\n");
}

#[test]
fn the_section_name_goes_up_to_0x0a_or_the_end() {
    let expected = "r=  0.67\n0 0 1 9 0\n";
    assert_eq!(printed("name_line", SAMPLE, b"A\nB\n"), expected);
    assert_eq!(printed("name_none", SAMPLE, b""), expected);
    assert_eq!(printed("name_blank", SAMPLE, b"\nB"), expected);
    assert_eq!(printed("name_other", SAMPLE, b"A\r\n"), "6 0 0 0 0\n");
    assert_eq!(printed("name_bytes", SAMPLE, b"\xFF\x00\n"), "6 0 0 0 0\n");
}

#[test]
fn reading_22_the_closing_line_follows_the_text_directly() {
    assert_eq!(printed("closing_none", b"$SEC A\n", b"A"), "0 0 1 0 0\n");
    assert_eq!(
        printed("closing_feed", b"$SEC A\n$NP\n", b"A"),
        "\x0C0 0 2 1 0\n"
    );
    assert_eq!(
        printed("closing_line", b"$SEC A\nx\n", b"A"),
        "x\n0 0 1 2 0\n"
    );
}

#[test]
fn sheet_has_65_536_bytes_of_text_and_4_096_places() {
    let line = "x".repeat(127);
    let text = |lines| format!("$SEC A\n$NOFF\n$BT {lines}\n{line}\n$ET");
    let end = |name, lines| printed(name, text(lines).as_bytes(), b"A");
    assert!(end("text_full", 512).ends_with("x\n0 0 9 65536 0\n"));
    assert!(end("text_over", 513).ends_with("x\n14 4 9 65536 0\n"));
    let asks = |passes| format!("$SEC A\n$BT {passes}\n$REC 1 P1 0 0 64\n$ET\n{{P1,3}}");
    let end = |name, passes| printed(name, asks(passes).as_bytes(), b"A");
    assert_eq!(end("reads_fit", 63), "???\n0 0 1 4 4033\n");
    assert_eq!(end("reads_full", 64), "9 5 1 0 4096\n");
}

#[test]
fn a_missing_file_is_said_and_ends_with_2() {
    for (name, files) in [("no_template", ["store"]), ("no_store", ["template"])] {
        let files = files.map(|file| (file, b"".as_slice()));
        let output = sheet(&folder(name, &files), b"A");
        assert_eq!(output.status.code(), Some(2));
        assert!(output.stdout.is_empty());
        let missing = name.trim_start_matches("no_");
        assert!(String::from_utf8_lossy(&output.stderr).contains(missing));
    }
}

#[test]
fn the_example_prints_as_expected() {
    let output = sheet(&example(), b"SHEET\n");
    assert!(output.status.success());
    let expected = fs::read(example().join("expected")).unwrap();
    assert_eq!(
        String::from_utf8_lossy(&output.stdout),
        String::from_utf8_lossy(&expected)
    );
}

#[test]
fn the_examples_list_has_no_form_feed() {
    let output = sheet(&example(), b"LIST\n");
    let text = String::from_utf8(output.stdout).unwrap();
    assert!(!text.contains('\x0C'));
    assert!(text.contains("\nCo-60   ; 1332.49;???      ;???       ;    0.29\n"));
    assert!(text.ends_with("\n0 0 1 537 85\n"));
}

#[test]
fn the_examples_store_is_its_text_form() {
    let text = fs::read(example().join("store.txt")).unwrap();
    let output = mkstore(&text);
    assert!(output.status.success());
    assert_eq!(output.stdout, fs::read(example().join("store")).unwrap());
}

#[test]
fn mkstore_writes_each_kind_in_the_order_of_keys() {
    let output = mkstore(b"# two cells\n1 2 0 0 S a b\n\n1 1 3 4 F -0.5\n1 1 3 3 I -2\n");
    let mut expected = b"I\x01\0\x01\0\x03\0\x03\xFF\xFF\xFF\xFE".to_vec();
    expected.extend(b"F\x01\0\x01\0\x03\0\x04\xFF\xFF\xFF\xFF\xFF\xF8\x5E\xE0");
    expected.extend(b"S\x01\0\x02\0\0\0\0\x03a b");
    expected.extend([0; 13]);
    assert_eq!(output.stdout, expected);
}

#[test]
fn mkstore_refuses_what_is_not_a_cell() {
    for line in [
        "1 1 0 0 I",
        "1 1 0 0 I x",
        "1 1 0 0 X 1",
        "36 1 0 0 I 1",
        "1 1 0 0 F 1.",
    ] {
        let output = mkstore(format!("1 1 0 0 I 1\n{line}\n").as_bytes());
        assert_eq!(output.status.code(), Some(2), "{line}");
        assert!(String::from_utf8_lossy(&output.stderr).contains("line 2"));
    }
}
