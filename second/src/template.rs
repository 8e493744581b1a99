//! The template: its lines, the checks 2–6, and where a run jumps.

use crate::endings::{LINE_FORM, NAME_REPEATED, NESTING, NO_SECTION, SUCCESS, TEMPLATE_FORM};
use crate::lines::{parse, Line, LINE_LIMIT};
use std::collections::HashSet;
use std::ops::Range;

/// The longest template.
pub const TEMPLATE_LIMIT: usize = 32_768;
/// The most tests open at once.
const TESTS: usize = 10;
/// The most tables open at once.
const TABLES: usize = 5;
/// Names are compared by this many first characters.
const NAME_COMPARED: usize = 8;

/// A template that passed the checks, ready to run. Lines count from 0 here.
pub(crate) struct Program {
    pub lines: Vec<Line>,
    /// For a test the line where it continues when it fails, for `$ELSE` the
    /// line after `$ENDIF`, for `$BT` the line after `$ET`, for `$ET` the line
    /// after `$BT`.
    pub jumps: Vec<usize>,
    /// The lines of the section or sections asked for.
    pub selected: Range<usize>,
}

/// The checks 2–6: the number and line they end with, or twice 0.
pub fn check(template: &[u8], section: &[u8]) -> (u32, u32) {
    match Program::read(template, section) {
        Ok(_) => (SUCCESS, 0),
        Err(refusal) => refusal,
    }
}

impl Program {
    /// Each check covers the whole template, then the next.
    pub fn read(template: &[u8], section: &[u8]) -> Result<Program, (u32, u32)> {
        if template.len() > TEMPLATE_LIMIT {
            return Err((TEMPLATE_FORM, 0));
        }
        let bytes = split(template);
        check_limits(&bytes)?;
        let lines = parse_all(&bytes)?;
        let jumps = check_nesting(&lines)?;
        check_names(&lines)?;
        let selected = select(&lines, section).ok_or((NO_SECTION, 0))?;
        Ok(Program {
            lines,
            jumps,
            selected,
        })
    }
}

/// The lines without their line ends; none begins after the final one.
pub fn split(template: &[u8]) -> Vec<&[u8]> {
    let mut lines: Vec<&[u8]> = template.split(|&byte| byte == b'\n').collect();
    if lines.last().is_some_and(|line| line.is_empty()) {
        lines.pop();
    }
    lines
}

/// A refusal naming a line counted from 0.
fn refusal(number: u32, line: usize) -> (u32, u32) {
    (number, line as u32 + 1)
}

fn check_limits(lines: &[&[u8]]) -> Result<(), (u32, u32)> {
    let outside = |line: &&[u8]| {
        line.len() > LINE_LIMIT || line.iter().any(|byte| !(0x20..=0x7E).contains(byte))
    };
    match lines.iter().position(outside) {
        Some(at) => Err(refusal(TEMPLATE_FORM, at)),
        None => Ok(()),
    }
}

fn parse_all(lines: &[&[u8]]) -> Result<Vec<Line>, (u32, u32)> {
    let parsed = lines.iter().enumerate();
    parsed
        .map(|(at, line)| parse(line).ok_or(refusal(LINE_FORM, at)))
        .collect()
}

/// A test or table that is open.
enum Open {
    /// Its `$IF`, or its `$ELSE` once that has come.
    Test { at: usize, in_else: bool },
    /// Its `$BT`.
    Table { at: usize },
}

/// The check for 4, which finds the jumps.
fn check_nesting(lines: &[Line]) -> Result<Vec<usize>, (u32, u32)> {
    let mut jumps = vec![0; lines.len()];
    let mut open = Vec::new();
    let mut in_section = false;
    for (at, line) in lines.iter().enumerate() {
        in_section |= matches!(line, Line::Section(_));
        let placed = in_section || *line == Line::Remark;
        if !placed || !nest(&mut open, &mut jumps, at, line) {
            return Err(refusal(NESTING, at));
        }
    }
    match open.is_empty() {
        true => Ok(jumps),
        // Open at the last line, which is named.
        false => Err(refusal(NESTING, lines.len() - 1)),
    }
}

/// Opens and closes what a line opens and closes, if it may.
fn nest(open: &mut Vec<Open>, jumps: &mut [usize], at: usize, line: &Line) -> bool {
    match line {
        Line::Section(_) => return open.is_empty(),
        Line::Test(_) => {
            let in_else = false;
            open.push(Open::Test { at, in_else });
            let tests = open.iter().filter(|open| matches!(open, Open::Test { .. }));
            return tests.count() <= TESTS;
        }
        Line::BeginTable(_) => {
            open.push(Open::Table { at });
            let tables = open
                .iter()
                .filter(|open| matches!(open, Open::Table { .. }));
            return tables.count() <= TABLES;
        }
        Line::Else => match open.pop() {
            Some(Open::Test { at: test, in_else }) if !in_else => {
                jumps[test] = at + 1;
                let in_else = true;
                open.push(Open::Test { at, in_else });
            }
            _ => return false,
        },
        Line::EndIf => match open.pop() {
            Some(Open::Test { at: test, .. }) => jumps[test] = at + 1,
            _ => return false,
        },
        Line::EndTable(_) => match open.pop() {
            Some(Open::Table { at: begin }) => {
                jumps[begin] = at + 1;
                jumps[at] = begin + 1;
            }
            _ => return false,
        },
        _ => {}
    }
    true
}

fn compared(name: &[u8]) -> &[u8] {
    &name[..name.len().min(NAME_COMPARED)]
}

/// The `$SEC` lines and the compared part of their names.
fn sections(lines: &[Line]) -> impl Iterator<Item = (usize, &[u8])> {
    lines
        .iter()
        .enumerate()
        .filter_map(|(at, line)| match line {
            Line::Section(name) => Some((at, compared(name))),
            _ => None,
        })
}

fn check_names(lines: &[Line]) -> Result<(), (u32, u32)> {
    let mut seen = HashSet::new();
    match sections(lines).find(|(_, name)| !seen.insert(*name)) {
        Some((at, _)) => Err(refusal(NAME_REPEATED, at)),
        None => Ok(()),
    }
}

/// The lines from the selected (or first) `$SEC` to the line before the next
/// (or to the end).
fn select(lines: &[Line], section: &[u8]) -> Option<Range<usize>> {
    let all = section.is_empty();
    let mut from_selected =
        sections(lines).skip_while(|(_, name)| !all && *name != compared(section));
    let (start, _) = from_selected.next()?;
    let end = match from_selected.next() {
        Some((next, _)) if !all => next,
        _ => lines.len(),
    };
    Some(start..end)
}
