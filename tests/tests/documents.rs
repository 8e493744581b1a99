//! What README.md and docs/ cite is there: definitions, theorems, functions, must-fail edits, crates. What definitions stand on.

use station_tests::documents::{below, crates, declared, defined, read, root};
use std::collections::BTreeSet;
use std::fs;
use std::path::{Path, PathBuf};

/// What stands between backticks.
fn code(text: &str) -> Vec<&str> {
    let spans = text
        .lines()
        .flat_map(|line| line.split('`').skip(1).step_by(2));
    spans.filter(|span| !span.contains(' ')).collect()
}

/// Where a citation has its file: `crate/specs/File:name`, or `File:name` in any crate.
fn cited_files(citation: &str, all: &[PathBuf]) -> Vec<PathBuf> {
    let file = format!("{citation}.antt");
    let same = |path: &&PathBuf| {
        if citation.contains('/') {
            path.ends_with(Path::new("crates").join(&file))
        } else {
            path.file_name().unwrap() == file.as_str()
        }
    };
    all.iter().filter(same).cloned().collect()
}

#[test]
fn cited_definitions_and_theorems_are_there() {
    let all = below(&root().join("crates"));
    for document in ["README.md", "docs/DECISIONS.md"] {
        let text = read(document);
        for span in code(&text) {
            let Some((place, name)) = span.split_once(':') else {
                continue;
            };
            let there = place.contains("/specs/") || place.contains("/proofs/");
            let file = place.rsplit('/').next().unwrap();
            let capital = file.starts_with(|c: char| c.is_ascii_uppercase());
            if !capital || name.starts_with(':') || place.starts_with("crate/") {
                continue;
            }
            assert!(there || !place.contains('/'), "{document}: {span}");
            let files = cited_files(place, &all);
            assert!(
                files.iter().any(|file| defined(file).contains(name)),
                "{document}: {span} is nowhere"
            );
        }
    }
}

/// The sources that a citation can mean: of `crate::module::name` and `crate::name` those of the crate, of `module::name` and
/// `Type::name` those of any.
fn cited_sources<'a>(
    parts: &[&str],
    all: &'a [(PathBuf, BTreeSet<String>)],
) -> Vec<&'a BTreeSet<String>> {
    let of_crate = crates().contains(parts[0]);
    let module = parts[usize::from(of_crate)..parts.len() - 1].first();
    let meant = |path: &Path, names: &BTreeSet<String>| {
        let of = !of_crate || path.starts_with(root().join("crates").join(parts[0]));
        let within = |m: &&str| path.file_stem().unwrap() == *m || names.contains(*m);
        of && module.is_none_or(within)
    };
    let sources = all.iter().filter(|(path, names)| meant(path, names));
    sources.map(|(_, names)| names).collect()
}

#[test]
fn cited_functions_are_there() {
    let files = below(&root().join("crates"));
    let sources = files
        .into_iter()
        .filter(|file| file.extension().is_some_and(|e| e == "rt"));
    let all: Vec<_> = sources
        .map(|file| (file.clone(), declared(&file)))
        .collect();
    for document in ["README.md", "docs/DECISIONS.md"] {
        let text = read(document);
        for span in code(&text).into_iter().filter(|span| span.contains("::")) {
            let parts: Vec<&str> = span.split("::").collect();
            if parts[0] == "crate" {
                continue;
            }
            let name = *parts.last().unwrap();
            let sources = cited_sources(&parts, &all);
            assert!(
                sources.iter().any(|names| names.contains(name)),
                "{document}: {span} is nowhere"
            );
        }
    }
}

/// The edits that a text cites as `crate/must-fail/name, name`.
fn cited_edits(text: &str) -> BTreeSet<(String, String)> {
    let mut edits = BTreeSet::new();
    for (at, _) in text.match_indices("/must-fail/") {
        let letter = |c: char| c.is_ascii_lowercase() || c == '_' || c.is_ascii_digit();
        let of = text[..at].rsplit(|c| !letter(c)).next().unwrap();
        let names = text[at + "/must-fail/".len()..].split(", ");
        for name in names {
            let end = name.find(|c| !letter(c)).unwrap_or(name.len());
            edits.insert((of.to_string(), name[..end].to_string()));
            if end < name.len() {
                break;
            }
        }
    }
    edits
}

#[test]
fn every_edit_is_cited_and_every_cited_edit_is_there() {
    let mut edits = BTreeSet::new();
    for name in crates() {
        for file in below(&root().join("crates").join(&name).join("must-fail")) {
            let edit = file.file_stem().unwrap().to_str().unwrap().to_string();
            edits.insert((name.clone(), edit));
        }
    }
    let mut cited = cited_edits(&read("docs/CLAIMS.md"));
    cited.remove(&("crate".to_string(), "name".to_string()));
    assert_eq!(edits, cited);
}

#[test]
fn the_map_and_the_table_of_times_have_every_crate() {
    let readme = read("README.md");
    let rows = readme
        .lines()
        .filter_map(|line| line.strip_prefix("| `crates/"));
    let mapped: BTreeSet<String> = rows
        .map(|row| row.split('`').next().unwrap().to_string())
        .collect();
    assert_eq!(mapped, crates());
    let folders = fs::read_dir(root().join("crates")).unwrap();
    let found: BTreeSet<String> = folders
        .map(|entry| entry.unwrap().file_name().into_string().unwrap())
        .collect();
    assert_eq!(found, crates());
    let times = read("docs/CHECK-TIMES.md");
    for name in crates() {
        let edits = below(&root().join("crates").join(&name).join("must-fail")).len();
        let row = times
            .lines()
            .find(|line| line.starts_with(&format!("| {name} |")));
        let row = row.unwrap_or_else(|| panic!("CHECK-TIMES.md has no row of {name}"));
        assert!(
            row.ends_with(&format!("| {edits} |")),
            "{name} has {edits} edits"
        );
    }
}

/// Whether a crate has functions, and not theorems alone.
fn has_code(name: &str) -> bool {
    let sources = below(&root().join("crates").join(name).join("src"));
    let code = |file: &PathBuf| fs::read_to_string(file).unwrap().contains("fn ");
    sources.iter().any(code)
}

#[test]
fn definitions_stand_on_definitions() {
    let theorems: Vec<String> = crates().into_iter().filter(|c| !has_code(c)).collect();
    for name in crates() {
        for file in below(&root().join("crates").join(&name).join("specs")) {
            let text = fs::read_to_string(&file).unwrap();
            for line in text.lines().filter(|line| line.contains("use Rattle.")) {
                let of = |crate_name: &String| line.contains(&format!("Rattle.{crate_name}."));
                let theorem = has_code(&name) && theorems.iter().any(of);
                let proof = line.contains(".proofs") && !line.contains("Rattle.std.");
                assert!(!proof && !theorem, "{}: {line}", file.display());
            }
        }
    }
}
