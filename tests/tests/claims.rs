//! docs/CLAIMS.md: each definition, theorem, contract and test is where it is said to be.

use station_tests::documents::{declared, defined, read, root};
use std::path::{Path, PathBuf};

/// The rows and the paragraphs of a document.
fn parts(text: &str) -> Vec<String> {
    let mut parts = vec![String::new()];
    for line in text.lines() {
        if line.is_empty() || line.starts_with('|') {
            parts.push(String::new());
        }
        let part = parts.last_mut().unwrap();
        part.push_str(line);
        part.push('\n');
    }
    parts
}

fn there(path: PathBuf) -> Option<PathBuf> {
    path.is_file().then_some(path)
}

/// The source of `crate::module::function`, `crate::module::Type::function` or `crate::function`, and the names that it must have.
fn source<'a>(span: &'a str, crates: &Path) -> Option<(PathBuf, Vec<&'a str>)> {
    let parts: Vec<&str> = span.split("::").collect();
    let sources = crates.join(parts[0]).join("src");
    if let Some(file) = there(sources.join(format!("{}.rt", parts[1]))) {
        return Some((file, parts[2..].to_vec()));
    }
    there(sources.join("lib.rt")).map(|file| (file, parts[1..].to_vec()))
}

/// What a span cites: the file, and the names that it must have. A name alone is of the file cited before it.
fn cited<'a>(span: &'a str, before: Option<&PathBuf>) -> Option<(PathBuf, Vec<&'a str>)> {
    let crates = root().join("crates");
    let plain = |c: char| c.is_alphanumeric() || "_-'".contains(c);
    if span.contains("::") {
        return Some(source(span, &crates).unwrap_or_else(|| panic!("{span} is nowhere")));
    }
    if let Some((place, name)) = span.split_once(':') {
        let file = there(crates.join(format!("{place}.antt")));
        return Some((
            file.unwrap_or_else(|| panic!("{span} is nowhere")),
            vec![name],
        ));
    }
    if span.contains('/') {
        let file = there(crates.join(format!("{span}.antt")));
        let folder = crates.join(span).is_dir() || root().join(span).is_dir();
        assert!(file.is_some() || folder, "{span} is nowhere");
        return file.map(|file| (file, Vec::new()));
    }
    let name = span.chars().all(plain) && span.starts_with(char::is_alphabetic);
    before
        .filter(|_| name)
        .map(|file| (file.clone(), vec![span]))
}

/// The last test file that a text names, as `package/tests/name.rs`; each must be there.
fn test_file(text: &str) -> Option<PathBuf> {
    let words = text.split(|c: char| !c.is_alphanumeric() && !"_/.".contains(c));
    let named = words.filter(|word| word.contains("/tests/"));
    let files = named.map(|word| {
        let file = there(root().join(word.trim_end_matches('.')));
        file.unwrap_or_else(|| panic!("{word} isn't there"))
    });
    files.last()
}

#[test]
fn what_a_row_cites_is_there() {
    let text = read("docs/CLAIMS.md");
    let claims = &text[text.find("## Demands").unwrap()..];
    let mut names = 0;
    for part in parts(claims) {
        let mut before = None;
        for (n, text) in part.split('`').enumerate() {
            if n % 2 == 0 {
                before = test_file(text).or(before);
                continue;
            }
            if text.contains(' ') {
                continue;
            }
            let Some((file, cited)) = cited(text, before.as_ref()) else {
                continue;
            };
            let has = match file.extension().unwrap().to_str() {
                Some("antt") => defined(&file),
                _ => declared(&file),
            };
            for name in cited {
                assert!(
                    has.contains(name),
                    "{name} is not in {}\n{part}",
                    file.display()
                );
                names += 1;
            }
            before = Some(file);
        }
    }
    assert!(names > 300, "{names}");
}
