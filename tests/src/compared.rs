//! The second interpreter's own calls, each made through libstation.a too and compared: its tests then test both.

pub use second::{arguments, fields, lines, numbers, store, template, values};
pub use second::{Answer, Asked, Edited, Question, Report, Value};

use crate::report::{asked as row, Asked as Row};

pub fn report(
    template: &[u8],
    section: &[u8],
    store: &[u8],
    len: usize,
    text: &mut [u8],
    reads: &mut [Question],
) -> Report {
    let mut other_text = text.to_vec();
    let mut other_reads: Vec<Row> = reads.iter().map(|&q| row(q)).collect();
    let end = second::report(template, section, store, len, text, reads);
    let other = crate::report::report(
        template,
        section,
        store,
        len,
        &mut other_text,
        &mut other_reads,
    );
    assert_eq!(other, end, "{}", String::from_utf8_lossy(template));
    assert_eq!(other_text, text);
    assert!(other_reads.iter().zip(reads).all(|(a, b)| *a == row(*b)));
    end
}

pub fn check(template: &[u8], section: &[u8]) -> (u32, u32) {
    let end = second::check(template, section);
    assert_eq!(crate::template::check(template, section), end);
    end
}

pub fn ask(store: &[u8], len: usize, question: Question) -> Asked {
    let asked = second::ask(store, len, question);
    assert_eq!(crate::store::ask(store, len, question), asked);
    asked
}

pub fn put(store: &mut [u8], len: usize, cell: &[u8]) -> Edited {
    let mut other = store.to_vec();
    let edited = second::put(store, len, cell);
    assert_eq!(crate::store::put(&mut other, len, cell), edited);
    assert_eq!(other, store);
    edited
}

pub fn remove(store: &mut [u8], len: usize, key: &[u8]) -> Edited {
    let mut other = store.to_vec();
    let edited = second::remove(store, len, key);
    assert_eq!(crate::store::remove(&mut other, len, key), edited);
    assert_eq!(other, store);
    edited
}
