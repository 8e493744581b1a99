//! Stores.

use crate::ffi;
use crate::refusal::ended;
use crate::{Answer, Cell, Decimal, Key, Question, Refusal, Value};
use std::fmt;

/// The most bytes of a store.
pub const STORE_BYTES: usize = 65_536;
/// The most cells of a store: the shortest, integers, have 12 bytes.
pub const STORE_CELLS: usize = 5_461;

/// A store in form: a buffer of 65,536 bytes and the store's length in it.
///
/// ```
/// use station::{Answer, Key, Question, Refusal, Store, Value};
///
/// let mut store = Store::new();
/// let key = Key { datasource: 1, parameter: 101, record: 3, entry: 0 };
/// store.put(key, "Cs-137")?;
/// assert_eq!(store.ask(Question::Cell(key))?, Answer::Value(Value::from("Cs-137")));
///
/// let records = Question::HighestRecord { datasource: 1, parameter: 101 };
/// assert_eq!(store.ask(records)?, Answer::Highest(3));
///
/// store.remove(key)?;
/// assert_eq!(store.ask(Question::Cell(key))?, Answer::Missing);
/// assert_eq!(store.remove(key), Err(Refusal::NoCell));
/// # Ok::<(), Refusal>(())
/// ```
#[derive(Clone)]
pub struct Store {
    buffer: Box<[u8]>,
    length: usize,
}

impl Store {
    /// A store without a cell.
    ///
    /// ```
    /// assert_eq!(station::Store::new().cells().count(), 0);
    /// ```
    pub fn new() -> Store {
        Store {
            buffer: vec![0; STORE_BYTES].into_boxed_slice(),
            length: 0,
        }
    }

    /// The store of some bytes, or 1 where these aren't in form.
    ///
    /// ```
    /// use station::{Refusal, Store};
    ///
    /// let mut store = Store::new();
    /// store.put(station::Key::parameter(1), 5)?;
    /// assert_eq!(Store::from_bytes(store.as_bytes())?.as_bytes(), store.as_bytes());
    /// assert_eq!(Store::from_bytes(b"no store").err(), Some(Refusal::StoreForm));
    /// # Ok::<(), Refusal>(())
    /// ```
    pub fn from_bytes(bytes: &[u8]) -> Result<Store, Refusal> {
        let mut store = Store::new();
        let buffer = store.buffer.get_mut(..bytes.len());
        buffer.ok_or(Refusal::StoreForm)?.copy_from_slice(bytes);
        store.length = bytes.len();
        // Any question within its limits is refused just where the store is out of form.
        store.ask(Question::Cell(Key::parameter(1)))?;
        Ok(store)
    }

    /// The bytes of the store.
    ///
    /// ```
    /// let mut store = station::Store::new();
    /// store.put(station::Key::parameter(0x0102), 5)?;
    /// assert_eq!(store.as_bytes(), [0x49, 1, 1, 2, 0, 0, 0, 0, 0, 0, 0, 5]);
    /// # Ok::<(), station::Refusal>(())
    /// ```
    pub fn as_bytes(&self) -> &[u8] {
        &self.buffer[..self.length]
    }

    /// Answers one question, or 15 where a number of it breaks its limits.
    ///
    /// ```
    /// use station::{Answer, Key, Question, Refusal, Store};
    ///
    /// let store = Store::new();
    /// assert_eq!(store.ask(Question::Cell(Key::parameter(7))), Ok(Answer::Missing));
    /// assert_eq!(store.ask(Question::Cell(Key::parameter(0))), Err(Refusal::Limit));
    /// ```
    pub fn ask(&self, question: Question) -> Result<Answer, Refusal> {
        let (number, handed) = ffi::ask(&self.buffer, self.length, question.into());
        ended(number)?;
        Ok(match handed.kind {
            0 => Answer::Missing,
            0x49 => Answer::Value(Value::Integer(handed.value as i32)),
            0x46 => Answer::Value(Value::Decimal(Decimal::from_millionths(handed.value))),
            0x53 => Answer::Value(text(&self.buffer[handed.place..][..handed.count])),
            1 => Answer::Highest(handed.count as u16),
            kind => unreachable!("an answer of kind {kind}"),
        })
    }

    /// Adds or replaces the cell of a key, whichever kind it had; 15 or 16 where that can't be.
    ///
    /// ```
    /// use station::{Key, Refusal, Store};
    ///
    /// let mut store = Store::new();
    /// store.put(Key::parameter(10), "sixteen bytes at")?;
    /// store.put(Key::parameter(10), 60_000)?;
    /// assert_eq!(store.cells().count(), 1);
    /// assert_eq!(store.put(Key::parameter(10), "seventeen bytes a"), Err(Refusal::Limit));
    /// assert_eq!(store.put(Key::parameter(10), 2_000_000_001), Err(Refusal::Limit));
    /// # Ok::<(), Refusal>(())
    /// ```
    pub fn put(&mut self, key: Key, value: impl Into<Value>) -> Result<(), Refusal> {
        let value = value.into();
        let (number, left) = ffi::put(&mut self.buffer, self.length, &Cell { key, value }.bytes());
        self.length = left;
        ended(number)
    }

    /// Takes out the cell of a key; 15, or 17 where there is none.
    ///
    /// ```
    /// use station::{Key, Refusal, Store};
    ///
    /// let mut store = Store::new();
    /// store.put(Key::parameter(1), 5)?;
    /// store.remove(Key::parameter(1))?;
    /// assert_eq!(store.as_bytes(), []);
    /// # Ok::<(), Refusal>(())
    /// ```
    pub fn remove(&mut self, key: Key) -> Result<(), Refusal> {
        let (number, left) = ffi::remove(&mut self.buffer, self.length, &key.bytes());
        self.length = left;
        ended(number)
    }

    /// The cells, in the order of their keys.
    ///
    /// ```
    /// use station::{Cell, Key, Store};
    ///
    /// let mut store = Store::new();
    /// store.put(Key::parameter(2), "two")?;
    /// store.put(Key::parameter(1), 1)?;
    /// let cells: Vec<Cell> = store.cells().collect();
    /// assert_eq!(cells[0], Cell { key: Key::parameter(1), value: 1.into() });
    /// assert_eq!(cells[1], Cell { key: Key::parameter(2), value: "two".into() });
    /// # Ok::<(), station::Refusal>(())
    /// ```
    pub fn cells(&self) -> Cells<'_> {
        Cells {
            rest: self.as_bytes(),
        }
    }

    /// The buffer, and the store's length in it.
    pub(crate) fn lent(&self) -> (&[u8], usize) {
        (&self.buffer, self.length)
    }
}

impl Default for Store {
    fn default() -> Store {
        Store::new()
    }
}

impl PartialEq for Store {
    /// Whether two stores have the same bytes.
    fn eq(&self, other: &Store) -> bool {
        self.as_bytes() == other.as_bytes()
    }
}

impl Eq for Store {}

impl fmt::Debug for Store {
    fn fmt(&self, f: &mut fmt::Formatter) -> fmt::Result {
        f.debug_list().entries(self.cells()).finish()
    }
}

/// A string's bytes, which are 0x20–0x7E.
fn text(bytes: &[u8]) -> Value {
    Value::Text(bytes.iter().map(|&byte| char::from(byte)).collect())
}

/// The cells of a store, from [`Store::cells`].
///
/// ```
/// let store = station::Store::new();
/// assert!(store.cells().next().is_none());
/// ```
#[derive(Clone, Debug)]
pub struct Cells<'a> {
    rest: &'a [u8],
}

impl Iterator for Cells<'_> {
    type Item = Cell;

    /// The next cell of a store in form.
    fn next(&mut self) -> Option<Cell> {
        let (&kind, rest) = self.rest.split_first()?;
        let (key, rest) = rest.split_first_chunk()?;
        let key = Key::from_bytes(*key);
        let (value, rest) = match kind {
            0x49 => {
                let (bytes, rest) = rest.split_first_chunk()?;
                (Value::Integer(i32::from_be_bytes(*bytes)), rest)
            }
            0x46 => {
                let (bytes, rest) = rest.split_first_chunk()?;
                let millionths = i64::from_be_bytes(*bytes);
                (Value::Decimal(Decimal::from_millionths(millionths)), rest)
            }
            _ => {
                let (bytes, rest) = rest.split_first_chunk::<17>()?;
                (text(&bytes[1..][..bytes[0].into()]), rest)
            }
        };
        self.rest = rest;
        Some(Cell { key, value })
    }
}
