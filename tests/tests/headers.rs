//! What the headers declare is what the Rattle source marks, what the libraries export, and what the Rust packages declare. A call
//! is a function of the crate, and of the crate of its exports.

#[path = "../../rust/tests/common/cc.rs"]
mod cc;

use cc::{library, root, run};
use std::fs;
use std::path::Path;
use std::process::Command;

/// The names of the calls in some text: `station_` and what follows, up to a parenthesis or a lifetime.
fn calls(text: &str) -> Vec<String> {
    let names = text.match_indices("station_").filter_map(|(at, _)| {
        let rest = &text[at..];
        let end = rest.find(|c: char| !c.is_ascii_alphanumeric() && c != '_')?;
        rest[end..]
            .starts_with(['(', '<'])
            .then(|| rest[..end].to_string())
    });
    sorted(names)
}

fn sorted(names: impl Iterator<Item = String>) -> Vec<String> {
    let mut names: Vec<String> = names.collect();
    names.sort_unstable();
    names.dedup();
    names
}

/// The calls that a crate's source has on lines that begin so.
fn marked(name: &str, begins: &str) -> Vec<String> {
    let mut source = String::new();
    for file in fs::read_dir(root().join("crates").join(name).join("src")).unwrap() {
        let text = fs::read_to_string(file.unwrap().path()).unwrap();
        for line in text.lines().filter(|l| l.starts_with(begins)) {
            source.push_str(line);
            source.push('\n');
        }
    }
    calls(&source)
}

/// Every name that a library defines for those who link it.
fn exported(name: &str) -> Vec<String> {
    let nm = Command::new("nm")
        .args(["-g", "--defined-only"])
        .arg(library(name))
        .output()
        .expect("nm");
    let said = String::from_utf8(nm.stdout).unwrap();
    let symbols = said
        .lines()
        .filter_map(|line| Some(line.split_once(" T ")?.1.to_string()));
    let symbols = sorted(symbols);
    let defined = said.lines().filter(|line| line.split(' ').count() == 3);
    assert_eq!(symbols.len(), defined.count(), "{said}");
    symbols
}

fn same_calls(name: &str, ffi: &str) {
    let header = format!("crates/{name}/include/{name}.h");
    let declared = calls(&fs::read_to_string(root().join(header)).unwrap());
    assert!(!declared.is_empty());
    assert_eq!(declared, marked(&format!("{name}_c"), "pub extern"));
    assert_eq!(declared, marked(name, "pub fn station_"));
    assert_eq!(declared, exported(name));
    assert_eq!(
        declared,
        calls(&fs::read_to_string(root().join(ffi)).unwrap())
    );
}

/// A user's library has the calls of station.h and no other.
#[test]
fn station() {
    same_calls("station", "rust/src/ffi.rs");
}

#[test]
fn station_testing() {
    same_calls("station_testing", "tests/src/ffi.rs");
}

#[test]
fn slices_of_length_0_may_be_null() {
    let source = Path::new(env!("CARGO_MANIFEST_DIR")).join("tests/nulls.c");
    let output = run(&source, "nulls", &["station", "station_testing"]);
    assert_eq!(String::from_utf8_lossy(&output.stdout), "");
    assert!(output.status.success());
}
