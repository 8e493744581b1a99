//! Prints a section of the file `template` over the file `store`, both in the
//! current folder. The section's name comes from standard input, up to its
//! first line end; an empty name prints all sections.

use second::{report, Question};
use std::io::{self, BufRead, Write};
use std::process::ExitCode;

const TEXT_BYTES: usize = 65_536;
const READ_PLACES: usize = 4_096;

fn main() -> ExitCode {
    match run() {
        Ok(()) => ExitCode::SUCCESS,
        Err(message) => {
            eprintln!("sheet: {message}");
            ExitCode::from(2)
        }
    }
}

fn run() -> Result<(), String> {
    let template = file("template")?;
    let store = file("store")?;
    let section = section_name().map_err(|error| format!("standard input: {error}"))?;
    let mut text = vec![0; TEXT_BYTES];
    let mut reads = vec![Question::default(); READ_PLACES];
    let end = report(
        &template,
        &section,
        &store,
        store.len(),
        &mut text,
        &mut reads,
    );
    let mut sheet = text[..end.text_bytes].to_vec();
    let closing = format!(
        "{} {} {} {} {}\n",
        end.number, end.line, end.pages, end.text_bytes, end.questions
    );
    sheet.extend(closing.bytes());
    let printed = io::stdout().write_all(&sheet);
    printed.map_err(|error| format!("standard output: {error}"))
}

fn file(name: &str) -> Result<Vec<u8>, String> {
    std::fs::read(name).map_err(|error| format!("file {name}: {error}"))
}

/// The bytes up to 0x0A or the end.
fn section_name() -> io::Result<Vec<u8>> {
    let mut name = Vec::new();
    io::stdin().lock().read_until(b'\n', &mut name)?;
    if name.last() == Some(&b'\n') {
        name.pop();
    }
    Ok(name)
}
