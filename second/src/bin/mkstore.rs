//! Writes a store from its text form: standard input to standard output.
//!
//! A line is a cell: datasource, parameter, record, entry, kind (I, F or S)
//! and value, one space between them. A string is the rest of its line. Cells
//! may come in any order; a later one replaces an earlier one of the same key.
//! Blank lines and lines beginning with # are skipped.

use second::put;
use std::io::{self, Read, Write};
use std::process::ExitCode;

const STORE_BYTES: usize = 65_536;

fn main() -> ExitCode {
    match run() {
        Ok(()) => ExitCode::SUCCESS,
        Err(message) => {
            eprintln!("mkstore: {message}");
            ExitCode::from(2)
        }
    }
}

fn run() -> Result<(), String> {
    let mut input = String::new();
    let read = io::stdin().read_to_string(&mut input);
    read.map_err(|error| format!("standard input: {error}"))?;
    let store = store(&input)?;
    let written = io::stdout().write_all(&store);
    written.map_err(|error| format!("standard output: {error}"))
}

fn store(input: &str) -> Result<Vec<u8>, String> {
    let mut store = vec![0; STORE_BYTES];
    let mut length = 0;
    for (at, line) in input.lines().enumerate() {
        if line.is_empty() || line.starts_with('#') {
            continue;
        }
        let cell = cell(line).ok_or(format!("line {}: not a cell", at + 1))?;
        let edited = put(&mut store, length, &cell);
        if edited.number != 0 {
            return Err(format!("line {}: put ends with {}", at + 1, edited.number));
        }
        length = edited.length;
    }
    store.truncate(length);
    Ok(store)
}

/// A cell's bytes; whether they keep the store's limits is left to put.
fn cell(line: &str) -> Option<Vec<u8>> {
    let parts: Vec<&str> = line.splitn(6, ' ').collect();
    let &[datasource, parameter, record, entry, kind, value] = parts.as_slice() else {
        return None;
    };
    let mut cell = kind.as_bytes().to_vec();
    cell.push(datasource.parse().ok()?);
    for number in [parameter, record, entry] {
        cell.extend(number.parse::<u16>().ok()?.to_be_bytes());
    }
    match kind {
        "I" => cell.extend(value.parse::<i32>().ok()?.to_be_bytes()),
        "F" => cell.extend(millionths(value)?.to_be_bytes()),
        "S" => cell.extend(string(value)?),
        _ => return None,
    }
    Some(cell)
}

/// A decimal such as -12.5 as a count of millionths.
fn millionths(value: &str) -> Option<i64> {
    let (whole, places) = value.split_once('.').unwrap_or((value, "0"));
    if places.is_empty() || places.len() > 6 {
        return None;
    }
    // The digits of both sides in one number keep the sign of -0.5.
    let padded = format!("{whole}{places:0<6}");
    padded.parse().ok()
}

/// A length and sixteen bytes.
fn string(value: &str) -> Option<Vec<u8>> {
    let mut bytes = vec![u8::try_from(value.len()).ok()?];
    bytes.extend(value.bytes());
    bytes.resize(bytes.len().max(17), 0);
    Some(bytes)
}
