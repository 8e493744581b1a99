//! The numbers that a call can end with, except 0.

use std::error::Error;
use std::fmt;

/// Why a call was refused: one of the numbers 1 to 17 of document 01.
///
/// ```
/// use station::Refusal;
///
/// let refusal = Refusal::ZeroDivisor;
/// assert_eq!(refusal.number(), 12);
/// assert_eq!(refusal.to_string(), "The divisor is zero.");
/// assert_eq!(Refusal::from_number(12), Some(refusal));
/// assert_eq!(Refusal::from_number(0), None); // success
/// ```
#[derive(Clone, Copy, Debug, PartialEq, Eq, Hash)]
#[repr(u8)]
pub enum Refusal {
    /// 1: the store's bytes.
    StoreForm = 1,
    /// 2: the template's bytes.
    TemplateForm,
    /// 3: a line of the template.
    LineForm,
    /// 4: tests, tables and sections.
    Nesting,
    /// 5: a section's name is there twice.
    NameRepeated,
    /// 6: the section asked for.
    NoSection,
    /// 7: 50,000 lines.
    TooManyLines,
    /// 8: an index, a datasource or a count.
    Index,
    /// 9: the read list is full.
    ReadListFull,
    /// 10: a missing argument.
    Missing,
    /// 11: a value's kind.
    WrongKind,
    /// 12: a division by zero.
    ZeroDivisor,
    /// 13: a result's range.
    OutOfRange,
    /// 14: the text is full.
    TextFull,
    /// 15: a question or an edit out of its limits.
    Limit,
    /// 16: the store is full.
    StoreFull,
    /// 17: nothing to remove.
    NoCell,
}

use Refusal::*;

const ALL: [Refusal; 17] = [
    StoreForm,
    TemplateForm,
    LineForm,
    Nesting,
    NameRepeated,
    NoSection,
    TooManyLines,
    Index,
    ReadListFull,
    Missing,
    WrongKind,
    ZeroDivisor,
    OutOfRange,
    TextFull,
    Limit,
    StoreFull,
    NoCell,
];

impl Refusal {
    /// Document 01's number.
    ///
    /// ```
    /// assert_eq!(station::Refusal::NoCell.number(), 17);
    /// ```
    pub const fn number(self) -> u32 {
        self as u32
    }

    /// The refusal of a number; none for 0, which is success, and for numbers that document 01 doesn't have.
    ///
    /// ```
    /// use station::Refusal;
    ///
    /// assert!((1..=17).all(|n| Refusal::from_number(n).unwrap().number() == n));
    /// assert_eq!(Refusal::from_number(18), None);
    /// ```
    pub fn from_number(number: u32) -> Option<Refusal> {
        ALL.into_iter().find(|refusal| refusal.number() == number)
    }

    /// Document 01's words.
    const fn words(self) -> &'static str {
        match self {
            StoreForm => "The store breaks its form or is longer than its buffer.",
            TemplateForm => "The template is too long (line 0), has a byte or line outside its limits.",
            LineForm => "A line has no form above, a number literal exceeds ±2,000,000,000, or fields widen a line past 132 bytes.",
            Nesting => "Nesting is crossed, unmatched, repeated ($ELSE), too deep, or open at the next $SEC or the last line, which is named; or a line other than $REM has no $SEC before it.",
            NameRepeated => "A section name came before; the later line is named.",
            NoSection => "The section asked for isn't there, or the name is empty and there is no $SEC.",
            TooManyLines => "50,000 lines were executed and another is due, which is named.",
            Index => "An index is outside 0–999, a $SETDS number outside 1–35, a count outside 0–64, or the last element passes 999.",
            ReadListFull => "The read list has no place for the next question.",
            Missing => "A command's argument is missing.",
            WrongKind => "A value has the wrong kind.",
            ZeroDivisor => "The divisor is zero.",
            OutOfRange => "A result is out of range, or $ET's k is below 1.",
            TextFull => "The next line, or a form feed alone, doesn't fit the output.",
            Limit => "An edit's or question's key, kind, unused number or value breaks a limit above.",
            StoreFull => "A put would pass the buffer or 65,536 bytes.",
            NoCell => "The key to remove has no cell.",
        }
    }
}

impl fmt::Display for Refusal {
    fn fmt(&self, f: &mut fmt::Formatter) -> fmt::Result {
        f.write_str(self.words())
    }
}

impl Error for Refusal {}

/// A call's number as a result. The library's contracts give 0 to 17 and nothing else.
pub(crate) fn ended(number: u32) -> Result<(), Refusal> {
    match number {
        0 => Ok(()),
        n => Err(Refusal::from_number(n).expect("libstation.a ends with 0 to 17")),
    }
}
