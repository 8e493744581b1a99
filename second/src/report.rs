//! The report of a template over a store.

use crate::endings::STORE_FORM;
use crate::machine::Machine;
use crate::store::{Question, Store};
use crate::template::Program;

/// What a report ends with.
#[derive(Clone, Copy, Debug, PartialEq, Eq)]
pub struct Report {
    pub number: u32,
    pub line: u32,
    pub pages: u32,
    pub text_bytes: usize,
    pub questions: usize,
}

/// Prints a template's section, or all for the empty name, over the store in
/// the first `len` bytes of a buffer.
pub fn report(
    template: &[u8],
    section: &[u8],
    store: &[u8],
    len: usize,
    text: &mut [u8],
    reads: &mut [Question],
) -> Report {
    let Some(store) = Store::read(store, len) else {
        return refused(STORE_FORM, 0);
    };
    match Program::read(template, section) {
        Ok(program) => Machine::new(&program, &store, text, reads).run(),
        Err((number, line)) => refused(number, line),
    }
}

/// A report ending in 1–6.
fn refused(number: u32, line: u32) -> Report {
    Report {
        number,
        line,
        pages: 0,
        text_bytes: 0,
        questions: 0,
    }
}
