//! What the tests share: cells, stores and runs with room to spare.
#![allow(dead_code)]

use second::{put, report, Question, Report};

/// A byte no test prints, to see what a run left alone.
pub const UNTOUCHED: u8 = 0xEE;

/// A question no run asks.
pub const NO_QUESTION: Question = Question {
    kind: 9,
    datasource: 9,
    parameter: 9,
    record: 9,
    entry: 9,
};

pub fn question(kind: u32, datasource: u32, parameter: u32, record: u32, entry: u32) -> Question {
    Question {
        kind,
        datasource,
        parameter,
        record,
        entry,
    }
}

pub fn key(datasource: u8, parameter: u16, record: u16, entry: u16) -> Vec<u8> {
    let mut key = vec![datasource];
    for number in [parameter, record, entry] {
        key.extend(number.to_be_bytes());
    }
    key
}

/// A key of datasource 1: parameter, record, entry.
pub type At = (u16, u16, u16);

pub fn cell(kind: u8, key: &[u8], value: &[u8]) -> Vec<u8> {
    [&[kind], key, value].concat()
}

pub fn integer(at: At, value: i32) -> Vec<u8> {
    cell(b'I', &key(1, at.0, at.1, at.2), &value.to_be_bytes())
}

pub fn decimal(at: At, millionths: i64) -> Vec<u8> {
    cell(b'F', &key(1, at.0, at.1, at.2), &millionths.to_be_bytes())
}

pub fn string(at: At, value: &str) -> Vec<u8> {
    let mut bytes = vec![value.len() as u8];
    bytes.extend(value.bytes());
    bytes.resize(17, 0);
    cell(b'S', &key(1, at.0, at.1, at.2), &bytes)
}

/// The same cell in another datasource.
pub fn in_datasource(datasource: u8, mut cell: Vec<u8>) -> Vec<u8> {
    cell[1] = datasource;
    cell
}

/// A store of cells put in any order.
pub fn store(cells: &[Vec<u8>]) -> Vec<u8> {
    let mut store = vec![0; 65_536];
    let mut length = 0;
    for cell in cells {
        let edited = put(&mut store, length, cell);
        assert_eq!(edited.number, 0);
        length = edited.length;
    }
    store.truncate(length);
    store
}

/// A run's end, text and questions.
#[derive(Debug, PartialEq)]
pub struct Run {
    pub end: Report,
    pub text: String,
    pub reads: Vec<Question>,
}

impl Run {
    /// The number and line.
    pub fn ends(&self) -> (u32, u32) {
        (self.end.number, self.end.line)
    }
}

/// A run lent so many bytes of text and places for questions. Whatever it
/// ends with, the rest of both buffers is untouched.
pub fn lent(template: &[u8], section: &[u8], store: &[u8], bytes: usize, places: usize) -> Run {
    let mut text = vec![UNTOUCHED; bytes];
    let mut reads = vec![NO_QUESTION; places];
    let len = store.len();
    let end = report(template, section, store, len, &mut text, &mut reads);
    assert!(text[end.text_bytes..].iter().all(|&b| b == UNTOUCHED));
    assert!(reads[end.questions..].iter().all(|&q| q == NO_QUESTION));
    Run {
        end,
        text: String::from_utf8_lossy(&text[..end.text_bytes]).into_owned(),
        reads: reads[..end.questions].to_vec(),
    }
}

/// A run over a store, with room to spare.
pub fn over(store: &[u8], template: &str, section: &str) -> Run {
    lent(
        template.as_bytes(),
        section.as_bytes(),
        store,
        65_536,
        4_096,
    )
}

/// A run of section A over cells; `$SEC A` is line 1, the body follows.
pub fn with(cells: &[Vec<u8>], body: &str) -> Run {
    over(&store(cells), &format!("$SEC A\n{body}"), "A")
}

/// A run of section A over an empty store.
pub fn run(body: &str) -> Run {
    with(&[], body)
}

/// The number and line a body ends with.
pub fn ends(body: &str) -> (u32, u32) {
    run(body).ends()
}

/// The text of a body that ends in success.
pub fn prints(body: &str) -> String {
    let run = run(body);
    assert_eq!(run.ends(), (0, 0), "{body}");
    run.text
}
