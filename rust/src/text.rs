//! The text form of a store.

use crate::{Cell, Decimal, Key, Refusal, Store, Value};
use std::error::Error;
use std::fmt;
use std::str::FromStr;

/// Why a text is no store: the line, and what is wrong with it.
///
/// ```
/// let error = station::Store::from_text("1 1 0 0 I 5\n1 2 0 0 X 5\n").unwrap_err();
/// assert_eq!(error.to_string(), "line 2: kind X: it is I, F or S");
/// ```
#[derive(Clone, Debug, PartialEq, Eq)]
pub struct NotText {
    /// The line, counted from 1.
    pub line: usize,
    /// What is wrong.
    pub why: String,
}

impl fmt::Display for NotText {
    fn fmt(&self, f: &mut fmt::Formatter) -> fmt::Result {
        write!(f, "line {}: {}", self.line, self.why)
    }
}

impl Error for NotText {}

/// What a [`Cell`] or a [`Key`] can't be read from.
///
/// ```
/// let error = "1 101".parse::<station::Key>().unwrap_err();
/// assert_eq!(error.to_string(), "datasource, parameter, record, entry are due");
/// ```
#[derive(Clone, Debug, PartialEq, Eq)]
pub struct NotACell(String);

impl fmt::Display for NotACell {
    fn fmt(&self, f: &mut fmt::Formatter) -> fmt::Result {
        f.write_str(&self.0)
    }
}

impl Error for NotACell {}

fn not<T>(why: impl Into<String>) -> Result<T, NotACell> {
    Err(NotACell(why.into()))
}

/// Digits that make a number up to a limit.
fn number(name: &str, text: &str, least: u16, most: u16) -> Result<u16, NotACell> {
    let digits = !text.is_empty() && text.bytes().all(|b| b.is_ascii_digit());
    match text.parse() {
        Ok(n) if digits && (least..=most).contains(&n) => Ok(n),
        _ => not(format!("{name} {text}: it is a number, {least} to {most}")),
    }
}

fn key(parts: [&str; 4]) -> Result<Key, NotACell> {
    Ok(Key {
        datasource: number("datasource", parts[0], 1, 35)? as u8,
        parameter: number("parameter", parts[1], 1, 65_535)?,
        record: number("record", parts[2], 0, 999)?,
        entry: number("entry", parts[3], 0, 999)?,
    })
}

fn value(kind: &str, text: &str) -> Result<Value, NotACell> {
    match kind {
        "I" => integer(text),
        "F" => decimal(text),
        "S" => string(text),
        _ => not(format!("kind {kind}: it is I, F or S")),
    }
}

fn integer(text: &str) -> Result<Value, NotACell> {
    match text.parse::<i32>() {
        Ok(n) if !text.starts_with('+') && n.unsigned_abs() <= 2_000_000_000 => Ok(n.into()),
        _ => not(format!("integer {text}: it is within ±2,000,000,000")),
    }
}

/// A decimal, also one written without a point.
fn decimal(text: &str) -> Result<Value, NotACell> {
    let dotted = match text.contains('.') {
        true => text.to_owned(),
        false => format!("{text}.0"),
    };
    match dotted.parse::<Decimal>() {
        Ok(d) if d.millionths().unsigned_abs() <= 2_000_000_000_000_000 => Ok(d.into()),
        _ => not(format!(
            "decimal {text}: it is within ±2,000,000,000, with 1 to 6 places"
        )),
    }
}

fn string(text: &str) -> Result<Value, NotACell> {
    let allowed = text.len() <= 16 && text.bytes().all(|b| (0x20..=0x7e).contains(&b));
    match allowed {
        true => Ok(text.into()),
        false => not(format!(
            "string {text:?}: it has 0 to 16 of the bytes 0x20–0x7E"
        )),
    }
}

/// A key in text form: `datasource parameter record entry`, one space between them.
///
/// ```
/// let key: station::Key = "1 101 3 0".parse().unwrap();
/// assert_eq!(key.to_string(), "P101.3 in datasource 1");
/// ```
impl FromStr for Key {
    type Err = NotACell;

    fn from_str(text: &str) -> Result<Key, NotACell> {
        let parts: Vec<&str> = text.split(' ').collect();
        match parts.try_into() {
            Ok(parts) => key(parts),
            Err(_) => not("datasource, parameter, record, entry are due"),
        }
    }
}

/// A cell in text form: `datasource parameter record entry kind value`, one space between them; kind I, F or S. A string is
/// all that follows.
///
/// ```
/// let cell: station::Cell = "1 101 3 0 S Cs-137".parse().unwrap();
/// assert_eq!(cell.to_string(), "P101.3 in datasource 1 = \"Cs-137\"");
/// ```
impl FromStr for Cell {
    type Err = NotACell;

    fn from_str(text: &str) -> Result<Cell, NotACell> {
        let parts: Vec<&str> = text.splitn(6, ' ').collect();
        let Ok([datasource, parameter, record, entry, kind, rest]) = <[&str; 6]>::try_from(parts)
        else {
            return not("datasource, parameter, record, entry, kind, value are due");
        };
        Ok(Cell {
            key: key([datasource, parameter, record, entry])?,
            value: value(kind, rest)?,
        })
    }
}

impl Store {
    /// A store from its text form: a line is a [`Cell`]; blank lines and those that begin with `#` are skipped. Cells may come
    /// in any order, and a later one replaces an earlier one of its key.
    ///
    /// ```
    /// let store = station::Store::from_text("# one cell\n1 2 0 0 S S-2231-07\n").unwrap();
    /// assert_eq!(store.cells().count(), 1);
    /// ```
    pub fn from_text(text: &str) -> Result<Store, NotText> {
        let mut store = Store::new();
        for (before, line) in text.lines().enumerate() {
            if line.is_empty() || line.starts_with('#') {
                continue;
            }
            let fault = |why| NotText {
                line: before + 1,
                why,
            };
            let Cell { key, value } = line.parse().map_err(|e: NotACell| fault(e.to_string()))?;
            let put = store.put(key, value);
            put.map_err(|refusal: Refusal| fault(refusal.to_string()))?;
        }
        Ok(store)
    }

    /// The text form of a store, a line a cell in the order of keys; [`Store::from_text`] makes the same store of it.
    ///
    /// ```
    /// let text = "1 2 0 0 S S-2231-07\n1 10 0 0 F 60000.0\n1 103 1 0 I 13947\n";
    /// assert_eq!(station::Store::from_text(text).unwrap().to_text(), text);
    /// ```
    pub fn to_text(&self) -> String {
        let line = |Cell { key, value }: Cell| {
            let (kind, value) = match value {
                Value::Integer(n) => ('I', n.to_string()),
                Value::Decimal(d) => ('F', d.to_string()),
                Value::Text(text) => ('S', text),
            };
            let Key {
                datasource,
                parameter,
                record,
                entry,
            } = key;
            format!("{datasource} {parameter} {record} {entry} {kind} {value}\n")
        };
        self.cells().map(line).collect()
    }
}
