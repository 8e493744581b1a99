//! The examples of docs/MANUAL.md, read out of it.
//!
//! A block `template [SECTION]` begins an example. The blocks `sheet`, `refused` (`NUMBER in line LINE`), `reads` and `console`
//! behind it say what it does. It stands on the block `store` shown last in its chapter, the text form of a store, or on an
//! empty store.
#![allow(dead_code)]

use std::fs;
use std::path::Path;

/// An example; in the sheet a form feed is itself again.
#[derive(Clone, Default)]
pub struct Example {
    /// The manual's line where its template begins.
    pub place: usize,
    pub template: String,
    pub section: String,
    pub store: String,
    /// What it prints, where that is shown: a refused one may print much.
    pub sheet: Option<String>,
    pub number: u32,
    pub line: u32,
    pub reads: Option<String>,
    pub console: Option<String>,
}

fn manual() -> String {
    let file = Path::new(env!("CARGO_MANIFEST_DIR")).join("../docs/MANUAL.md");
    fs::read_to_string(file).expect("docs/MANUAL.md")
}

/// `NUMBER`, or `NUMBER in line LINE`.
fn refused(text: &str) -> (u32, u32) {
    let (number, line) = text
        .trim()
        .split_once(" in line ")
        .unwrap_or((text.trim(), "0"));
    (number.parse().unwrap(), line.parse().unwrap())
}

/// All examples, in order.
pub fn examples() -> Vec<Example> {
    let text = manual();
    let mut lines = text.lines().enumerate();
    let (mut examples, mut store) = (Vec::<Example>::new(), String::new());
    while let Some((place, line)) = lines.next() {
        if line.starts_with("## ") {
            store.clear();
        }
        let Some(info) = line.strip_prefix("```") else {
            continue;
        };
        let body: Vec<&str> = lines
            .by_ref()
            .map(|(_, l)| l)
            .take_while(|l| *l != "```")
            .collect();
        let body: String = body.iter().map(|l| format!("{l}\n")).collect();
        let (kind, section) = info.split_once(' ').unwrap_or((info, ""));
        let last = examples.last_mut();
        match kind {
            "store" => store = body,
            "template" => examples.push(Example {
                place: place + 1,
                template: body,
                section: section.to_owned(),
                store: store.clone(),
                ..Example::default()
            }),
            kind => add(last.expect("a template comes first"), kind, body),
        }
    }
    examples
}

fn add(example: &mut Example, kind: &str, body: String) {
    match kind {
        "sheet" => example.sheet = Some(body.replace("<FF>", "\x0c")),
        "refused" => (example.number, example.line) = refused(&body),
        "reads" => example.reads = Some(body),
        "console" => example.console = Some(body),
        _ => panic!("a block that no test runs: {kind}"),
    }
}
