//! The page: its number and its next line.

/// The lines a page holds.
pub const LINES: u32 = 60;

/// PAGENUM and LINENUM.
#[derive(Clone, Copy, Debug, PartialEq, Eq)]
pub struct Page {
    /// PAGENUM.
    pub number: u32,
    /// LINENUM: the next line, 1 to 61.
    pub line: u32,
}

impl Page {
    /// The first page, without a line.
    pub fn fresh() -> Page {
        Page { number: 1, line: 1 }
    }

    /// The page after a break.
    pub fn after_break(self) -> Page {
        Page {
            number: self.number + 1,
            line: 1,
        }
    }

    /// The page after a printed line.
    pub fn after_line(self) -> Page {
        Page {
            line: self.line + 1,
            ..self
        }
    }

    /// Whether the page has no line yet.
    pub fn is_empty(self) -> bool {
        self.line == 1
    }

    /// Whether the page holds all its lines.
    pub fn is_full(self) -> bool {
        self.line > LINES
    }

    /// The lines left, 61 - LINENUM.
    pub fn lines_left(self) -> u32 {
        LINES + 1 - self.line
    }
}
