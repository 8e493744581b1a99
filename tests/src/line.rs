//! The parsed form of a line, and of a piece of its text, as rows of numbers.

pub use crate::ffi::{line as write_line, piece as write_piece};

/// What a line or a piece is, its number, and two arguments of seven numbers.
pub type Row = [u64; 16];

/// What stands in a row before a call: no code and no place is as large.
const BEFORE: u64 = 0x5a5a_5a5a_5a5a_5a5a;

pub fn line(line: &[u8]) -> Row {
    let mut row = [BEFORE; 16];
    assert!(write_line(line, &mut row));
    row
}

pub fn piece(line: &[u8], at: usize) -> Row {
    let mut row = [BEFORE; 16];
    assert!(write_piece(line, at, &mut row));
    row
}
