//! The store: its form, questions and edits.

use crate::endings::{LIMIT_BROKEN, NO_CELL, STORE_FORM, STORE_FULL, SUCCESS};
use crate::numbers::{DECIMAL_LIMIT, INTEGER_LIMIT};
use crate::values::{Value, STRING_LIMIT};
use std::ops::Range;

/// The longest store.
pub const STORE_LIMIT: usize = 65_536;
/// The highest datasource.
pub const DATASOURCES: u32 = 35;
/// The highest record or entry.
pub const INDEX_LIMIT: u32 = 999;
/// The bytes of a key.
const KEY_LENGTH: usize = 7;

/// A question: a kind and four numbers.
#[derive(Clone, Copy, Debug, Default, PartialEq, Eq)]
pub struct Question {
    pub kind: u32,
    pub datasource: u32,
    pub parameter: u32,
    pub record: u32,
    pub entry: u32,
}

/// What a question gets.
#[derive(Clone, Debug, PartialEq, Eq)]
pub enum Answer {
    /// Kind 1: the cell's value, or missing.
    Cell(Value),
    /// Kinds 2 and 3: the highest number, or 0.
    Number(u32),
}

/// What an ask ends with; a refused one answers missing.
#[derive(Clone, Debug, PartialEq, Eq)]
pub struct Asked {
    pub number: u32,
    pub answer: Answer,
}

/// What an edit ends with: its number and the store's length.
#[derive(Clone, Copy, Debug, PartialEq, Eq)]
pub struct Edited {
    pub number: u32,
    pub length: usize,
}

/// A key; keys are ordered as their bytes are.
#[derive(Clone, Copy, Debug, PartialEq, Eq, PartialOrd, Ord)]
pub struct Key {
    pub datasource: u32,
    pub parameter: u32,
    pub record: u32,
    pub entry: u32,
}

impl Key {
    fn in_limits(self) -> bool {
        (1..=DATASOURCES).contains(&self.datasource)
            && (1..=0xFFFF).contains(&self.parameter)
            && self.record <= INDEX_LIMIT
            && self.entry <= INDEX_LIMIT
    }

    /// A key from its seven bytes.
    fn read(bytes: &[u8]) -> Option<Key> {
        let &[datasource, p, q, r, s, e, f] = bytes else {
            return None;
        };
        let two = |high, low| u32::from(u16::from_be_bytes([high, low]));
        let key = Key {
            datasource: datasource.into(),
            parameter: two(p, q),
            record: two(r, s),
            entry: two(e, f),
        };
        key.in_limits().then_some(key)
    }
}

/// A cell and the bytes it takes up.
#[derive(Clone, Debug, PartialEq, Eq)]
pub struct Cell {
    pub key: Key,
    pub value: Value,
    pub bytes: Range<usize>,
}

/// A store that has its form.
pub struct Store {
    pub cells: Vec<Cell>,
}

/// Whether the first `len` bytes of a buffer are a store in form.
pub fn in_form(store: &[u8], len: usize) -> bool {
    Store::read(store, len).is_some()
}

impl Store {
    /// The store in the first `len` bytes of a buffer, if it has its form.
    pub fn read(store: &[u8], len: usize) -> Option<Store> {
        let bytes = store.get(..len)?;
        if len > STORE_LIMIT {
            return None;
        }
        let mut cells: Vec<Cell> = Vec::new();
        let mut at = 0;
        while at < len {
            let cell = read_cell(bytes, at)?;
            if cells.last().is_some_and(|before| before.key >= cell.key) {
                return None;
            }
            at = cell.bytes.end;
            cells.push(cell);
        }
        Some(Store { cells })
    }

    /// The answer to a question, if that keeps its limits.
    pub fn answer(&self, question: Question) -> Option<Answer> {
        let key = Key {
            datasource: question.datasource,
            parameter: question.parameter,
            record: question.record,
            entry: question.entry,
        };
        if !key.in_limits() {
            return None;
        }
        match question {
            Question { kind: 1, .. } => Some(Answer::Cell(self.value(key))),
            Question {
                kind: 2,
                record: 0,
                entry: 0,
                ..
            } => Some(Answer::Number(self.highest_record(key))),
            Question {
                kind: 3, entry: 0, ..
            } => Some(Answer::Number(self.highest_entry(key))),
            _ => None,
        }
    }

    /// Where the cell of a key is, or where it would go.
    fn find(&self, key: Key) -> Result<usize, usize> {
        self.cells.binary_search_by_key(&key, |cell| cell.key)
    }

    fn value(&self, key: Key) -> Value {
        match self.find(key) {
            Ok(at) => self.cells[at].value.clone(),
            Err(_) => Value::Missing,
        }
    }

    fn highest_record(&self, key: Key) -> u32 {
        let record = INDEX_LIMIT;
        let entry = INDEX_LIMIT;
        let found = self.last_up_to(Key {
            record,
            entry,
            ..key
        });
        let same =
            |found: &Key| (found.datasource, found.parameter) == (key.datasource, key.parameter);
        found.filter(same).map_or(0, |found| found.record)
    }

    fn highest_entry(&self, key: Key) -> u32 {
        let entry = INDEX_LIMIT;
        let found = self.last_up_to(Key { entry, ..key });
        let same = |found: &Key| Key { entry: 0, ..*found } == Key { entry: 0, ..key };
        found.filter(same).map_or(0, |found| found.entry)
    }

    /// The last key that isn't above this one.
    fn last_up_to(&self, key: Key) -> Option<Key> {
        let count = self.cells.partition_point(|cell| cell.key <= key);
        self.cells[..count].last().map(|cell| cell.key)
    }

    /// The bytes of a key's cell, or the empty place where it would go.
    fn place(&self, key: Key, len: usize) -> Range<usize> {
        match self.find(key) {
            Ok(at) => self.cells[at].bytes.clone(),
            Err(at) => {
                let start = self.cells.get(at).map_or(len, |cell| cell.bytes.start);
                start..start
            }
        }
    }
}

/// The cell that starts at a byte: kind, key, value.
fn read_cell(bytes: &[u8], at: usize) -> Option<Cell> {
    let key_at = at + 1;
    let value_at = key_at + KEY_LENGTH;
    let kind = *bytes.get(at)?;
    let end = value_at + value_length(kind)?;
    Some(Cell {
        key: Key::read(bytes.get(key_at..value_at)?)?,
        value: read_value(kind, bytes.get(value_at..end)?)?,
        bytes: at..end,
    })
}

fn value_length(kind: u8) -> Option<usize> {
    match kind {
        0x49 => Some(4),
        0x46 => Some(8),
        0x53 => Some(1 + STRING_LIMIT),
        _ => None,
    }
}

/// The value in exactly its kind's bytes.
fn read_value(kind: u8, bytes: &[u8]) -> Option<Value> {
    match kind {
        0x49 => {
            let value = i64::from(i32::from_be_bytes(bytes.try_into().ok()?));
            let range = -INTEGER_LIMIT..=INTEGER_LIMIT;
            range.contains(&value).then_some(Value::Integer(value))
        }
        0x46 => {
            let value = i64::from_be_bytes(bytes.try_into().ok()?);
            let range = -DECIMAL_LIMIT..=DECIMAL_LIMIT;
            range.contains(&value).then_some(Value::Decimal(value))
        }
        _ => {
            let (length, bytes) = bytes.split_first()?;
            let string = bytes.get(..usize::from(*length))?;
            let rest = &bytes[string.len()..];
            let printable = string.iter().all(|byte| (0x20..=0x7E).contains(byte));
            let fits = printable && rest.iter().all(|&byte| byte == 0);
            fits.then(|| Value::String(string.to_vec()))
        }
    }
}

/// Answers one question.
pub fn ask(store: &[u8], len: usize, question: Question) -> Asked {
    let answered = match Store::read(store, len) {
        None => Err(STORE_FORM),
        Some(store) => store.answer(question).ok_or(LIMIT_BROKEN),
    };
    match answered {
        Ok(answer) => Asked {
            number: SUCCESS,
            answer,
        },
        Err(number) => Asked {
            number,
            answer: Answer::Cell(Value::Missing),
        },
    }
}

/// Adds or replaces the cell of a key, whichever kind it had.
pub fn put(store: &mut [u8], len: usize, cell: &[u8]) -> Edited {
    edit(store, len, cell, |read| {
        let whole = |new: &Cell| new.bytes.end == cell.len();
        let new = read_cell(cell, 0).filter(whole).ok_or(LIMIT_BROKEN)?;
        Ok(read.place(new.key, len))
    })
}

/// Takes out the cell of a key.
pub fn remove(store: &mut [u8], len: usize, key: &[u8]) -> Edited {
    edit(store, len, &[], |read| {
        let key = Key::read(key).ok_or(LIMIT_BROKEN)?;
        let place = read.place(key, len);
        match place.is_empty() {
            true => Err(NO_CELL),
            false => Ok(place),
        }
    })
}

/// Replaces the place found in the store by some bytes; a refusal changes
/// nothing and hands back the old length.
fn edit(
    store: &mut [u8],
    len: usize,
    bytes: &[u8],
    find: impl FnOnce(&Store) -> Result<Range<usize>, u32>,
) -> Edited {
    let found = Store::read(store, len).ok_or(STORE_FORM);
    match found.and_then(|read| find(&read)) {
        Err(number) => Edited {
            number,
            length: len,
        },
        Ok(place) => replace(store, len, place, bytes),
    }
}

fn replace(store: &mut [u8], len: usize, place: Range<usize>, bytes: &[u8]) -> Edited {
    let length = len - place.len() + bytes.len();
    if length > store.len().min(STORE_LIMIT) {
        let (number, length) = (STORE_FULL, len);
        return Edited { number, length };
    }
    let after = store[place.end..len].to_vec();
    let moved = place.start + bytes.len();
    store[place.start..moved].copy_from_slice(bytes);
    store[moved..length].copy_from_slice(&after);
    // Where the store shortens, bytes up to the old length become zero.
    if length < len {
        store[length..len].fill(0);
    }
    let number = SUCCESS;
    Edited { number, length }
}
