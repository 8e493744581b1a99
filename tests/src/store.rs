//! The store: questions, puts, removes and the index.

use crate::ffi;
use crate::report::asked;
use second::{Answer, Asked, Edited, Question, Value};
use station::testing;
pub use station::testing::Handed;
pub use station::STORE_CELLS as MOST_CELLS;

/// The answer in the second interpreter's terms: a string is a part of the store. What an answer doesn't need is 0.
fn answer(h: Handed, buffer: &[u8]) -> Answer {
    match (h.kind, h.value, h.place, h.count) {
        (0, 0, 0, 0) => Answer::Cell(Value::Missing),
        (0x49, n, 0, 0) => Answer::Cell(Value::Integer(n)),
        (0x46, n, 0, 0) => Answer::Cell(Value::Decimal(n)),
        (0x53, 0, place, count) => Answer::Cell(Value::String(buffer[place..][..count].to_vec())),
        (1, 0, 0, count) => Answer::Number(count as u32),
        _ => panic!("no answer: {h:?}"),
    }
}

pub fn ask(buffer: &[u8], length: usize, q: Question) -> Asked {
    let (number, handed) = testing::ask(buffer, length, asked(q));
    Asked {
        number,
        answer: answer(handed, buffer),
    }
}

/// The number; the places of the cells go to `places`, their count to `count`.
pub use crate::ffi::index as index_in;

/// The number of cells, with their places written down; none where the store is out of form or the places are too few.
pub fn index(buffer: &[u8], length: usize, places: &mut [u16]) -> Option<usize> {
    let mut count = 0;
    let number = ffi::index(buffer, length, places, &mut count);
    (number == 0).then_some(count)
}

/// A question over the places of a store's cells.
pub fn look_up(buffer: &[u8], places: &[u16], known: usize, q: Question, h: &mut Handed) {
    ffi::look_up(buffer, places, known, asked(q), h);
}

pub fn looked_up(buffer: &[u8], places: &[u16], known: usize, q: Question) -> Answer {
    let mut h = Handed::BEFORE;
    look_up(buffer, places, known, q, &mut h);
    answer(h, buffer)
}

/// The same, first sought near a hint; where the search ended is returned.
pub fn look_up_near(
    buffer: &[u8],
    places: &[u16],
    known: usize,
    q: Question,
    hint: usize,
    h: &mut Handed,
) -> usize {
    ffi::look_up_near(buffer, places, known, asked(q), hint, h)
}

pub fn looked_up_near(
    buffer: &[u8],
    places: &[u16],
    known: usize,
    q: Question,
    hint: usize,
) -> (Answer, usize) {
    let mut h = Handed::BEFORE;
    let ended = look_up_near(buffer, places, known, q, hint, &mut h);
    (answer(h, buffer), ended)
}

pub fn put(buffer: &mut [u8], length: usize, cell: &[u8]) -> Edited {
    let (number, length) = testing::put(buffer, length, cell);
    Edited { number, length }
}

pub fn remove(buffer: &mut [u8], length: usize, key: &[u8]) -> Edited {
    let (number, length) = testing::remove(buffer, length, key);
    Edited { number, length }
}

/// A cell's bytes, from its key's four numbers and its value.
pub fn cell(key: [u16; 4], value: &Value) -> Vec<u8> {
    let mut bytes = vec![0];
    bytes.extend(self::key(key));
    match value {
        Value::Integer(n) => {
            bytes[0] = 0x49;
            bytes.extend((*n as i32).to_be_bytes());
        }
        Value::Decimal(n) => {
            bytes[0] = 0x46;
            bytes.extend(n.to_be_bytes());
        }
        Value::String(s) => {
            bytes[0] = 0x53;
            bytes.push(s.len() as u8);
            bytes.extend(s);
            bytes.resize(25, 0);
        }
        Value::Missing => {}
    }
    bytes
}

/// A store of decimals: 4,096 are exactly 65,536 bytes.
pub fn decimals(cells: u16) -> Vec<u8> {
    let decimal = |n: u16| {
        let key = [1 + n / 160, 1 + n % 160, n % 7, n % 3];
        cell(key, &Value::Decimal(i64::from(n) * 1_000_001))
    };
    (0..cells).flat_map(decimal).collect()
}

/// A key's seven bytes.
pub fn key([datasource, parameter, record, entry]: [u16; 4]) -> Vec<u8> {
    let mut bytes = vec![datasource as u8];
    for n in [parameter, record, entry] {
        bytes.extend(n.to_be_bytes());
    }
    bytes
}
