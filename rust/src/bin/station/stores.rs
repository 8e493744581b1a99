//! Calls on stores.

use crate::end::{refused, wrong, End};
use crate::files;
use station::{Cell, Key, Question, Refusal};
use std::ffi::OsString;

pub fn make(arguments: &[OsString]) -> End {
    let store = files::store_text(&arguments[0])?;
    files::write(&arguments[1], store.as_bytes())
}

pub fn show(arguments: &[OsString]) -> End {
    let store = files::store(&arguments[0])?;
    files::print(store.to_text().as_bytes())
}

/// The words behind the store, one space between them.
fn words(arguments: &[OsString]) -> End<String> {
    let words = arguments[1..].join(" ".as_ref());
    words
        .into_string()
        .or_else(|words| wrong(format!("station: {}: not readable", words.display())))
}

/// A refusal of an edit or question.
fn told<T>(result: Result<T, Refusal>) -> End<T> {
    result.or_else(|refusal| refused(format!("error[{}]: {refusal}", refusal.number())))
}

pub fn ask(arguments: &[OsString]) -> End {
    let store = files::store(&arguments[0])?;
    let words = words(arguments)?;
    let Some(question) = question(&words) else {
        return wrong(format!(
            "station: {words}: not a question: Pn, Pn.r, Pn.r.e, Pn|RECCNT or Pn.r|ENTCNT, and `in datasource N` behind it"
        ));
    };
    let answer = told(store.ask(question))?;
    files::print(format!("{answer}\n").as_bytes())
}

/// A question as a template writes it; in datasource 1 where none is said.
fn question(words: &str) -> Option<Question> {
    let (asked, datasource) = match words.split_once(' ') {
        None => (words, 1),
        Some((asked, place)) => (
            asked,
            number(place.strip_prefix("in datasource ")?)?
                .try_into()
                .ok()?,
        ),
    };
    let (cell, filter) = match asked.split_once('|') {
        None => (asked, None),
        Some((cell, filter)) => (cell, Some(filter)),
    };
    let parts: Option<Vec<u16>> = cell.strip_prefix('P')?.split('.').map(number).collect();
    let parts = parts?;
    let at = |place: usize| parts.get(place).copied().unwrap_or(0);
    let (parameter, record) = (at(0), at(1));
    match (filter, parts.len()) {
        (None, 1..=3) => Some(Question::Cell(Key {
            datasource,
            parameter,
            record,
            entry: at(2),
        })),
        (Some("RECCNT"), 1) => Some(Question::HighestRecord {
            datasource,
            parameter,
        }),
        (Some("ENTCNT"), 2) => Some(Question::HighestEntry {
            datasource,
            parameter,
            record,
        }),
        _ => None,
    }
}

fn number(digits: &str) -> Option<u16> {
    let plain = digits.bytes().all(|b| b.is_ascii_digit());
    digits.parse().ok().filter(|_| plain)
}

pub fn put(arguments: &[OsString]) -> End {
    let mut store = files::store(&arguments[0])?;
    let words = words(arguments)?;
    let Cell { key, value } = match words.parse() {
        Ok(cell) => cell,
        Err(error) => return wrong(format!("station: {error}")),
    };
    told(store.put(key, value))?;
    files::write(&arguments[0], store.as_bytes())
}

pub fn remove(arguments: &[OsString]) -> End {
    let mut store = files::store(&arguments[0])?;
    let key: Key = match words(arguments)?.parse() {
        Ok(key) => key,
        Err(error) => return wrong(format!("station: {error}")),
    };
    told(store.remove(key))?;
    files::write(&arguments[0], store.as_bytes())
}
