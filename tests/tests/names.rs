//! In what must be believed a name has one meaning: definitions, types and cases of specs/ outside Inner/ and Readers/, the types of
//! the code, and the fields of both.

use station_tests::documents::{below, crates, root};
use std::collections::{BTreeMap, BTreeSet};
use std::fs;
use std::path::{Path, PathBuf};

/// Names that stand in several files and mean the same in each, with the crates that have them.
const SAME: [(&str, &[&str]); 7] = [
    ("Worth", &["values"]), // the definition, and the type of the code that stands for it
    ("begins", &["cells", "scan"]), // a list of bytes begins with another
    ("missing", &["meaning", "values"]), // of an answer, and of what an argument is worth
    ("number", &["meaning", "values"]),
    ("point", &["fields", "grammar"]), // a byte
    ("space", &["fields", "grammar"]),
    ("string", &["meaning", "values"]),
];

/// Names of a definition and of a field that mean the same, or are document 01's words for both.
const FIELDS: [&str; 10] = [
    "answer",
    "behind",
    "datasource",
    "digits",
    "line",
    "number",
    "parameter",
    "text",
    "upper",
    "wrong",
];

/// Whether a file of specs/ is part of what must be believed.
fn believed(file: &Path) -> bool {
    let aside = ["Inner", "Readers", "Inner.antt", "Readers.antt", "Lib.antt"];
    let antt = file.extension().is_some_and(|e| e == "antt");
    antt && !file
        .iter()
        .any(|part| aside.contains(&part.to_str().unwrap()))
}

/// What a file names, and whether it is a field. In specs/ that is `name : ..`, or a type, behind the words that say what it is; what is
/// indented in a record is a field.
fn defined(text: &str) -> Vec<(String, bool)> {
    let mut names = Vec::new();
    let mut record = false;
    for line in text.lines() {
        let top = !line.starts_with(' ');
        let words = line.split_whitespace();
        let said: Vec<&str> = words
            .skip_while(|word| ["unfoldable", "abbrev", "pub"].contains(word))
            .collect();
        match said[..] {
            ["data" | "record", name, ..] if top => names.push((name.to_string(), false)),
            [name, ":", ..] => names.push((name.to_string(), record && !top)),
            _ => (),
        }
        if top && !said.is_empty() {
            record = said[0] == "record";
        }
    }
    names
}

/// The structs and enums of a source, and the fields that are public.
fn declared(text: &str) -> Vec<(String, bool)> {
    let word = |text: &str| {
        text.chars()
            .take_while(|c| c.is_alphanumeric() || *c == '_')
            .collect::<String>()
    };
    let name = |line: &str| {
        if let Some(field) = line.strip_prefix("    pub ") {
            let name = word(field);
            return field[name.len()..].starts_with(':').then_some((name, true));
        }
        let rest = line.trim_start_matches("pub ");
        let kind = rest
            .strip_prefix("struct ")
            .or(rest.strip_prefix("enum "))?;
        Some((word(kind), false))
    };
    text.lines().filter_map(name).collect()
}

/// The definitions to be believed, and the sources.
fn files() -> Vec<PathBuf> {
    let folders = crates()
        .into_iter()
        .map(|name| root().join("crates").join(name));
    let of = |folder: PathBuf| {
        let specs = below(&folder.join("specs"))
            .into_iter()
            .filter(|file| believed(file));
        specs.chain(below(&folder.join("src"))).collect::<Vec<_>>()
    };
    folders.flat_map(of).collect()
}

/// Where each name is defined, and the names of fields. Every file of rows has rows, and what they are made of, of its own.
fn names() -> (BTreeMap<String, BTreeSet<PathBuf>>, BTreeSet<String>) {
    let mut all: BTreeMap<String, BTreeSet<PathBuf>> = BTreeMap::new();
    let mut fields = BTreeSet::new();
    for file in files() {
        let text = fs::read_to_string(&file).unwrap();
        let code = file.extension().is_some_and(|e| e == "rt");
        let named = if code {
            declared(&text)
        } else {
            defined(&text)
        };
        let rows = file.ends_with("Rows.antt");
        let place = if rows { PathBuf::from("Rows") } else { file };
        for (name, field) in named {
            if field {
                fields.insert(name);
            } else {
                all.entry(name).or_default().insert(place.clone());
            }
        }
    }
    (all, fields)
}

/// The crate that a file is of.
fn owner(file: &Path) -> String {
    let below = file.strip_prefix(root().join("crates")).unwrap_or(file);
    below.iter().next().unwrap().to_str().unwrap().to_string()
}

#[test]
fn a_name_has_one_meaning() {
    let (all, fields) = names();
    assert!(
        all.len() > 800 && fields.len() > 120,
        "{} names, {} fields",
        all.len(),
        fields.len()
    );
    let several = all.iter().filter(|(_, files)| files.len() > 1);
    let found: BTreeMap<&str, BTreeSet<String>> = several
        .map(|(name, files)| {
            (
                name.as_str(),
                files.iter().map(|file| owner(file)).collect(),
            )
        })
        .collect();
    let same = SAME
        .iter()
        .map(|(name, of)| (*name, of.iter().map(|c| c.to_string()).collect()));
    assert_eq!(found, same.collect());
    let rows = BTreeSet::from([PathBuf::from("Rows")]);
    let shared = all
        .iter()
        .filter(|(name, files)| **files != rows && fields.contains(*name));
    assert_eq!(
        shared.map(|(name, _)| name.as_str()).collect::<Vec<_>>(),
        FIELDS
    );
}

#[test]
fn what_a_file_names_is_found() {
    let specs = "-- one : x\nabbrev pub one : ℕ\none = 1\n\npub data Two : Type 0 where\n  first-case : Two\n  other : ℕ → Two\n\
        \npub record Three (n : ℕ) : Type 0 where\n  -- said\n  pub field : ℕ\n\nmodule _ (n : ℕ) where\n  unfoldable pub four : ℕ\n  four = n\n";
    let names = [
        ("one", false),
        ("Two", false),
        ("first-case", false),
        ("other", false),
        ("Three", false),
        ("field", true),
        ("four", false),
    ];
    assert_eq!(
        defined(specs),
        names.map(|(name, field)| (name.to_string(), field))
    );
    let code = "pub struct Page {\n    pub row: u32,\n}\nenum Way {\n    On,\n}\npub struct Pair(u8);\n    pub fn new() -> Page\n";
    let names = [
        ("Page", false),
        ("row", true),
        ("Way", false),
        ("Pair", false),
    ];
    assert_eq!(
        declared(code),
        names.map(|(name, field)| (name.to_string(), field))
    );
}
