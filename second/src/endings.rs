//! The numbers a run, an ask or an edit can end with.

/// Success.
pub const SUCCESS: u32 = 0;
/// The store breaks its form or is longer than its buffer.
pub const STORE_FORM: u32 = 1;
/// The template is too long, has a byte or line outside its limits.
pub const TEMPLATE_FORM: u32 = 2;
/// A line has no form, a literal is out of range, or fields widen it too far.
pub const LINE_FORM: u32 = 3;
/// Nesting is wrong, or a line other than $REM has no $SEC before it.
pub const NESTING: u32 = 4;
/// A section name came before.
pub const NAME_REPEATED: u32 = 5;
/// The section asked for isn't there.
pub const NO_SECTION: u32 = 6;
/// 50,000 lines were executed and another is due.
pub const TOO_MANY_LINES: u32 = 7;
/// An index, a datasource number, a count or a last element is out of range.
pub const INDEX_RANGE: u32 = 8;
/// The read list has no place for the next question.
pub const LIST_FULL: u32 = 9;
/// A command's argument is missing.
pub const ARGUMENT_MISSING: u32 = 10;
/// A value has the wrong kind.
pub const WRONG_KIND: u32 = 11;
/// The divisor is zero.
pub const ZERO_DIVISOR: u32 = 12;
/// A result is out of range, or $ET's k is below 1.
pub const OUT_OF_RANGE: u32 = 13;
/// The next line, or a form feed alone, doesn't fit the output.
pub const TEXT_FULL: u32 = 14;
/// An edit's or question's key, kind, unused number or value breaks a limit.
pub const LIMIT_BROKEN: u32 = 15;
/// A put would pass the buffer or 65,536 bytes.
pub const STORE_FULL: u32 = 16;
/// The key to remove has no cell.
pub const NO_CELL: u32 = 17;
