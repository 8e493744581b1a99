//! Where in a template a refusal of checks 2 to 5 lies, and what would have been allowed there.
//!
//! The verdict is the proved library's; this is only its explanation. Where it finds nothing it says nothing.

use crate::{Refusal, Refused};

mod argument;
mod command;
mod nesting;
mod text;

/// What is wrong with a line of a template.
///
/// ```
/// use station::{Explanation, Template};
///
/// let text = "$SEC A\n$SETE IV100 5\n";
/// let refused = Template::check(text).unwrap_err();
/// let why = Explanation::of(text.as_bytes(), refused).unwrap();
/// assert_eq!((why.column, why.width), (7, 5));
/// assert_eq!(why.what, "n of IVn is 1–99");
/// ```
#[derive(Clone, Debug, PartialEq, Eq)]
pub struct Explanation {
    /// The column where it begins, counted from 1; one past the line where something is missing at its end.
    pub column: usize,
    /// Its bytes, at least 1.
    pub width: usize,
    /// What is wrong there.
    pub what: String,
    /// What would have been allowed there, or what else belongs to it.
    pub notes: Vec<String>,
}

impl Explanation {
    /// The explanation of a refusal that [`Template::check`](crate::Template::check) gave of these bytes.
    ///
    /// ```
    /// use station::{Explanation, Template};
    ///
    /// let text = "$SEC A\n$IF 1\nx\n";
    /// let refused = Template::check(text).unwrap_err();
    /// let why = Explanation::of(text.as_bytes(), refused).unwrap();
    /// assert_eq!(why.what, "$IF of line 2 is open at the last line");
    /// ```
    pub fn of(template: &[u8], refused: Refused) -> Option<Explanation> {
        let lines = split(template);
        let at = (refused.line as usize).checked_sub(1)?;
        let line = *lines.get(at)?;
        match refused.refusal {
            Refusal::TemplateForm => bytes(line),
            Refusal::LineForm => command::fault(line),
            Refusal::Nesting => nesting::fault(&lines, at),
            Refusal::NameRepeated => repeated(&lines, at),
            _ => None,
        }
    }

    /// From one place of a line to another, counted from 0.
    fn between(from: usize, to: usize, what: impl Into<String>) -> Explanation {
        Explanation {
            column: from + 1,
            width: to.saturating_sub(from).max(1),
            what: what.into(),
            notes: Vec::new(),
        }
    }

    fn note(mut self, note: impl Into<String>) -> Explanation {
        self.notes.push(note.into());
        self
    }
}

/// The lines without their line ends; none begins after the final one.
fn split(template: &[u8]) -> Vec<&[u8]> {
    let mut lines: Vec<&[u8]> = template.split(|&byte| byte == b'\n').collect();
    if lines.last().is_some_and(|line| line.is_empty()) {
        lines.pop();
    }
    lines
}

/// Check 2: a byte or the length of a line.
fn bytes(line: &[u8]) -> Option<Explanation> {
    let outside = line.iter().position(|b| !(0x20..=0x7e).contains(b));
    if let Some(at) = outside {
        let name = match line[at] {
            0x09 => ", a tab",
            0x0d => ", a carriage return: a line ends with 0x0A alone",
            _ => "",
        };
        let what = format!("byte 0x{:02X}{name}", line[at]);
        return Some(Explanation::between(at, at + 1, what).note("allowed: 0x20–0x7E"));
    }
    let long = line.len() > 132;
    long.then(|| {
        let what = format!("the line has {} bytes", line.len());
        Explanation::between(132, line.len(), what).note("allowed: 132")
    })
}

/// Check 5: the line whose name has the same first eight characters.
fn repeated(lines: &[&[u8]], at: usize) -> Option<Explanation> {
    let name = |line: &[u8]| {
        line.strip_prefix(b"$SEC ")
            .map(|n| n[..n.len().min(8)].to_vec())
    };
    let wanted = name(lines[at])?;
    let earlier = lines[..at]
        .iter()
        .position(|line| name(line).as_ref() == Some(&wanted))?;
    let what = format!(
        "`{}` began the name in line {} too",
        String::from_utf8_lossy(&wanted),
        earlier + 1
    );
    let note = "names are compared by their first eight characters";
    Some(Explanation::between(5, 5 + wanted.len(), what).note(note))
}
