//! The repository's files, and the names that they define.

use std::collections::BTreeSet;
use std::fs;
use std::path::{Path, PathBuf};

pub fn root() -> PathBuf {
    Path::new(env!("CARGO_MANIFEST_DIR")).join("..")
}

pub fn read(name: &str) -> String {
    fs::read_to_string(root().join(name)).unwrap_or_else(|e| panic!("{name}: {e}"))
}

/// The files below a folder.
pub fn below(folder: &Path) -> Vec<PathBuf> {
    let Ok(entries) = fs::read_dir(folder) else {
        return Vec::new();
    };
    let paths = entries.map(|entry| entry.unwrap().path());
    paths
        .flat_map(|path| {
            if path.is_dir() {
                below(&path)
            } else {
                vec![path]
            }
        })
        .collect()
}

/// The crates that are listed, as `name: ..` or `name staticlib: ..`.
pub fn crates() -> BTreeSet<String> {
    let list = read("crates.txt");
    let lines = list.lines().filter(|line| !line.starts_with('#'));
    lines
        .map(|line| line.split([':', ' ']).next().unwrap().to_string())
        .collect()
}

/// The names that the lines of a file begin with, behind the words that say what kind of definition it is.
pub fn defined(file: &Path) -> BTreeSet<String> {
    let text = fs::read_to_string(file).unwrap();
    let words = ["unfoldable", "abbrev", "pub", "record", "data"];
    let first = |line: &str| {
        let name = line.split_whitespace().find(|word| !words.contains(word));
        name.map(str::to_string)
    };
    text.lines().filter_map(first).collect()
}

/// The functions, types, constants and modules that a source declares.
pub fn declared(file: &Path) -> BTreeSet<String> {
    let text = fs::read_to_string(file).unwrap();
    let kinds = ["fn", "struct", "enum", "const", "type", "mod"];
    let words: Vec<&str> = text
        .split(|c: char| !c.is_alphanumeric() && c != '_')
        .filter(|word| !word.is_empty())
        .collect();
    let pairs = words.windows(2).filter(|pair| kinds.contains(&pair[0]));
    pairs.map(|pair| pair[1].to_string()).collect()
}
