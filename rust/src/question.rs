//! Keys, values, questions and answers.

use crate::ffi::Asking;
use crate::Decimal;
use std::fmt;

/// The key of a cell. Any numbers may be handed in; those outside document 01's limits are refused with 15.
///
/// ```
/// use station::Key;
///
/// let key = Key { datasource: 1, parameter: 101, record: 3, entry: 0 };
/// assert_eq!(key.to_string(), "P101.3 in datasource 1");
/// ```
#[derive(Clone, Copy, Debug, PartialEq, Eq, PartialOrd, Ord, Hash)]
pub struct Key {
    /// 1–35.
    pub datasource: u8,
    /// 1–65,535.
    pub parameter: u16,
    /// 0–999.
    pub record: u16,
    /// 0–999.
    pub entry: u16,
}

impl Key {
    /// The key of a parameter in datasource 1, record and entry 0: what `Pn` asks for at a run's start.
    ///
    /// ```
    /// assert_eq!(station::Key::parameter(12).to_string(), "P12 in datasource 1");
    /// ```
    pub const fn parameter(parameter: u16) -> Key {
        Key {
            datasource: 1,
            parameter,
            record: 0,
            entry: 0,
        }
    }

    /// The seven bytes of a key as a store holds it.
    pub(crate) fn bytes(self) -> [u8; 7] {
        let [p, q] = self.parameter.to_be_bytes();
        let [r, s] = self.record.to_be_bytes();
        let [e, f] = self.entry.to_be_bytes();
        [self.datasource, p, q, r, s, e, f]
    }

    /// The key of seven bytes.
    pub(crate) fn from_bytes([d, p, q, r, s, e, f]: [u8; 7]) -> Key {
        Key {
            datasource: d,
            parameter: u16::from_be_bytes([p, q]),
            record: u16::from_be_bytes([r, s]),
            entry: u16::from_be_bytes([e, f]),
        }
    }
}

impl fmt::Display for Key {
    fn fmt(&self, f: &mut fmt::Formatter) -> fmt::Result {
        write!(f, "P{}", self.parameter)?;
        if self.record != 0 || self.entry != 0 {
            write!(f, ".{}", self.record)?;
        }
        if self.entry != 0 {
            write!(f, ".{}", self.entry)?;
        }
        write!(f, " in datasource {}", self.datasource)
    }
}

/// A value of a cell.
///
/// ```
/// use station::Value;
///
/// assert_eq!(Value::Integer(-7).to_string(), "-7");
/// assert_eq!(Value::from("Cs-137").to_string(), "\"Cs-137\"");
/// assert_eq!(Value::Decimal("0.482".parse().unwrap()).to_string(), "0.482");
/// ```
#[derive(Clone, Debug, PartialEq, Eq, Hash)]
pub enum Value {
    /// Kind 0x49, within ±2,000,000,000.
    Integer(i32),
    /// Kind 0x46, within ±2×10^15 millionths.
    Decimal(Decimal),
    /// Kind 0x53: up to 16 of the bytes 0x20–0x7E.
    Text(String),
}

impl From<i32> for Value {
    fn from(n: i32) -> Value {
        Value::Integer(n)
    }
}

impl From<Decimal> for Value {
    fn from(d: Decimal) -> Value {
        Value::Decimal(d)
    }
}

impl From<&str> for Value {
    fn from(text: &str) -> Value {
        Value::Text(text.to_owned())
    }
}

impl fmt::Display for Value {
    fn fmt(&self, f: &mut fmt::Formatter) -> fmt::Result {
        match self {
            Value::Integer(n) => write!(f, "{n}"),
            Value::Decimal(d) => write!(f, "{d}"),
            Value::Text(text) => write!(f, "\"{text}\""),
        }
    }
}

/// A cell: a key and its value.
///
/// ```
/// use station::{Cell, Key};
///
/// let cell = Cell { key: Key::parameter(2), value: "S-2231-07".into() };
/// assert_eq!(cell.to_string(), "P2 in datasource 1 = \"S-2231-07\"");
/// ```
#[derive(Clone, Debug, PartialEq, Eq, Hash)]
pub struct Cell {
    /// Where it stands.
    pub key: Key,
    /// What it holds.
    pub value: Value,
}

impl Cell {
    /// A cell as a store holds it. A text that is too long for its kind makes bytes that no store takes.
    pub(crate) fn bytes(&self) -> Vec<u8> {
        let mut bytes = vec![0];
        bytes.extend(self.key.bytes());
        match &self.value {
            Value::Integer(n) => {
                bytes[0] = 0x49;
                bytes.extend(n.to_be_bytes());
            }
            Value::Decimal(d) => {
                bytes[0] = 0x46;
                bytes.extend(d.millionths().to_be_bytes());
            }
            Value::Text(text) => {
                bytes[0] = 0x53;
                bytes.push(u8::try_from(text.len()).unwrap_or(u8::MAX));
                bytes.extend(text.bytes());
                bytes.resize(bytes.len().max(25), 0);
            }
        }
        bytes
    }
}

impl fmt::Display for Cell {
    fn fmt(&self, f: &mut fmt::Formatter) -> fmt::Result {
        write!(f, "{} = {}", self.key, self.value)
    }
}

/// A question, written as a template writes what asks it.
///
/// ```
/// use station::{Key, Question};
///
/// let cell = Key { datasource: 2, parameter: 120, record: 1, entry: 3 };
/// assert_eq!(Question::Cell(cell).to_string(), "P120.1.3 in datasource 2");
/// let records = Question::HighestRecord { datasource: 1, parameter: 101 };
/// assert_eq!(records.to_string(), "P101|RECCNT in datasource 1");
/// let entries = Question::HighestEntry { datasource: 1, parameter: 120, record: 1 };
/// assert_eq!(entries.to_string(), "P120.1|ENTCNT in datasource 1");
/// ```
#[derive(Clone, Copy, Debug, PartialEq, Eq, Hash)]
pub enum Question {
    /// Kind 1: the cell of a key.
    Cell(Key),
    /// Kind 2: a parameter's highest record number in a datasource.
    HighestRecord {
        /// 1–35.
        datasource: u8,
        /// 1–65,535.
        parameter: u16,
    },
    /// Kind 3: the highest entry number in one record.
    HighestEntry {
        /// 1–35.
        datasource: u8,
        /// 1–65,535.
        parameter: u16,
        /// 0–999.
        record: u16,
    },
}

impl From<Question> for Asking {
    fn from(question: Question) -> Asking {
        let (kind, key) = match question {
            Question::Cell(key) => (1, key),
            Question::HighestRecord {
                datasource,
                parameter,
            } => (2, of(datasource, parameter, 0)),
            Question::HighestEntry {
                datasource,
                parameter,
                record,
            } => (3, of(datasource, parameter, record)),
        };
        Asking {
            kind,
            datasource: key.datasource.into(),
            parameter: key.parameter.into(),
            record: key.record.into(),
            entry: key.entry.into(),
        }
    }
}

fn of(datasource: u8, parameter: u16, record: u16) -> Key {
    Key {
        datasource,
        parameter,
        record,
        entry: 0,
    }
}

impl From<Asking> for Question {
    /// A question of a read list, whose numbers are within their limits.
    fn from(asked: Asking) -> Question {
        let datasource = asked.datasource as u8;
        let [parameter, record, entry] =
            [asked.parameter, asked.record, asked.entry].map(|n| n as u16);
        match asked.kind {
            1 => Question::Cell(Key {
                datasource,
                parameter,
                record,
                entry,
            }),
            2 => Question::HighestRecord {
                datasource,
                parameter,
            },
            3 => Question::HighestEntry {
                datasource,
                parameter,
                record,
            },
            kind => unreachable!("a question of kind {kind}"),
        }
    }
}

impl fmt::Display for Question {
    fn fmt(&self, f: &mut fmt::Formatter) -> fmt::Result {
        match self {
            Question::Cell(key) => write!(f, "{key}"),
            Question::HighestRecord {
                datasource,
                parameter,
            } => write!(f, "P{parameter}|RECCNT in datasource {datasource}"),
            Question::HighestEntry {
                datasource,
                parameter,
                record,
            } => write!(f, "P{parameter}.{record}|ENTCNT in datasource {datasource}"),
        }
    }
}

/// An answer.
///
/// ```
/// use station::{Answer, Value};
///
/// assert_eq!(Answer::Missing.to_string(), "missing");
/// assert_eq!(Answer::Value(Value::Integer(1)).to_string(), "1");
/// assert_eq!(Answer::Highest(10).to_string(), "10");
/// ```
#[derive(Clone, Debug, PartialEq, Eq, Hash)]
pub enum Answer {
    /// No cell has the key.
    Missing,
    /// The cell's kind and value.
    Value(Value),
    /// The highest record or entry number, 0 if there is none.
    Highest(u16),
}

impl fmt::Display for Answer {
    fn fmt(&self, f: &mut fmt::Formatter) -> fmt::Result {
        match self {
            Answer::Missing => f.write_str("missing"),
            Answer::Value(value) => write!(f, "{value}"),
            Answer::Highest(n) => write!(f, "{n}"),
        }
    }
}
