//! Lines, their parsed form, and reading one.

use crate::arguments::{argument, index, variable, Argument, Array, Index, Variable};
use crate::arguments::{ARRAYS, PARAMETERS};
use crate::numbers::Operation;
use crate::reader::Reader;
use std::cmp::Ordering;

/// The longest line, as written and with fields at their widths.
pub const LINE_LIMIT: usize = 132;
/// The widest field.
pub const WIDTH_LIMIT: u16 = 32;
/// The longest section name.
const NAME_LIMIT: usize = 16;

/// A line of a template.
#[derive(Clone, Debug, PartialEq, Eq)]
pub enum Line {
    /// A line to be printed.
    Text(Vec<Piece>),
    /// `$REM`.
    Remark,
    /// `$SEC name`.
    Section(Vec<u8>),
    /// `$SETE variable argument`.
    Set(Variable, Argument),
    /// `$SETA`, `$SETS`, `$SETM` or `$SETD variable argument`.
    Change(Operation, Variable, Argument),
    /// `$IF` and its kin.
    Test(Test),
    /// `$ELSE`.
    Else,
    /// `$ENDIF`.
    EndIf,
    /// `$BT n`.
    BeginTable(Argument),
    /// `$ET [k]`.
    EndTable(Option<Argument>),
    /// `$REC` and `$TBL`.
    Fill(Fill),
    /// `$SETDS n`.
    Datasource(Index),
    /// `$NOFF`.
    NoFormFeed,
    /// `$NP [n]`.
    NewPage(Option<Argument>),
    /// `$PHn text`, or `$PHn` alone, which undefines it.
    Heading(u8, Option<Vec<Piece>>),
}

/// A part of a text line or heading.
#[derive(Clone, Debug, PartialEq, Eq)]
pub enum Piece {
    Bytes(Vec<u8>),
    Field {
        argument: Argument,
        width: u8,
        places: Option<u8>,
    },
}

/// What a test asks.
#[derive(Clone, Debug, PartialEq, Eq)]
pub enum Test {
    /// `$IF`.
    NonZero(Argument),
    /// `$IFNOT`.
    Zero(Argument),
    /// `$IFEQ`, `$IFNE`, `$IFLT`, `$IFLE`, `$IFGT`, `$IFGE`.
    Numbers(Relation, Argument, Argument),
    /// `$IFEQSS`, and with case ignored `$IFEQSI`.
    Strings {
        ignore_case: bool,
        first: Argument,
        second: Argument,
    },
}

/// How two numbers are to compare.
#[derive(Clone, Copy, Debug, PartialEq, Eq)]
pub enum Relation {
    Equal,
    NotEqual,
    Less,
    LessOrEqual,
    Greater,
    GreaterOrEqual,
}

impl Relation {
    pub fn holds(self, ordering: Ordering) -> bool {
        match self {
            Relation::Equal => ordering.is_eq(),
            Relation::NotEqual => ordering.is_ne(),
            Relation::Less => ordering.is_lt(),
            Relation::LessOrEqual => ordering.is_le(),
            Relation::Greater => ordering.is_gt(),
            Relation::GreaterOrEqual => ordering.is_ge(),
        }
    }
}

/// What `$REC n Pm record entry count` or `$TBL` fills.
#[derive(Clone, Debug, PartialEq, Eq)]
pub struct Fill {
    pub array: Array,
    pub parameter: u16,
    pub record: Index,
    pub entry: Index,
    pub count: Index,
}

/// Reads a line without its line end; none means it has no form. The limits of
/// check 2 are taken as kept.
pub fn parse(line: &[u8]) -> Option<Line> {
    if !line.starts_with(b"$") {
        return pieces(line, 0).map(Line::Text);
    }
    let end = line.iter().position(|&byte| byte == b' ');
    let (word, rest) = line.split_at(end.unwrap_or(line.len()));
    match word {
        b"$REM" => Some(Line::Remark),
        _ if word.starts_with(b"$PH") => heading(word, rest),
        _ => {
            let mut reader = Reader::new(rest);
            let line = command(word, &mut reader)?;
            reader.at_end().then_some(line)
        }
    }
}

/// Reads a command's arguments; what is left over is the caller's to refuse.
fn command(word: &[u8], reader: &mut Reader) -> Option<Line> {
    match word {
        b"$SEC" => section(reader),
        b"$SETE" => Some(Line::Set(spaced(reader, variable)?, value(reader)?)),
        b"$SETA" => change(Operation::Add, reader),
        b"$SETS" => change(Operation::Subtract, reader),
        b"$SETM" => change(Operation::Multiply, reader),
        b"$SETD" => change(Operation::Divide, reader),
        b"$ELSE" => Some(Line::Else),
        b"$ENDIF" => Some(Line::EndIf),
        b"$BT" => value(reader).map(Line::BeginTable),
        b"$ET" => optional(reader).map(Line::EndTable),
        b"$REC" => fill(Array::R, reader),
        b"$TBL" => fill(Array::T, reader),
        b"$SETDS" => spaced(reader, index).map(Line::Datasource),
        b"$NOFF" => Some(Line::NoFormFeed),
        b"$NP" => optional(reader).map(Line::NewPage),
        _ => test(word, reader).map(Line::Test),
    }
}

fn test(word: &[u8], reader: &mut Reader) -> Option<Test> {
    let relation = match word {
        b"$IF" => return value(reader).map(Test::NonZero),
        b"$IFNOT" => return value(reader).map(Test::Zero),
        b"$IFEQSS" => return strings(false, reader),
        b"$IFEQSI" => return strings(true, reader),
        b"$IFEQ" => Relation::Equal,
        b"$IFNE" => Relation::NotEqual,
        b"$IFLT" => Relation::Less,
        b"$IFLE" => Relation::LessOrEqual,
        b"$IFGT" => Relation::Greater,
        b"$IFGE" => Relation::GreaterOrEqual,
        _ => return None,
    };
    Some(Test::Numbers(relation, value(reader)?, value(reader)?))
}

fn strings(ignore_case: bool, reader: &mut Reader) -> Option<Test> {
    Some(Test::Strings {
        ignore_case,
        first: value(reader)?,
        second: value(reader)?,
    })
}

fn section(reader: &mut Reader) -> Option<Line> {
    let name = spaced(reader, |reader| Some(reader.until(b"")))?;
    let allowed = |byte: &u8| byte.is_ascii_uppercase() || byte.is_ascii_digit();
    let fits = (1..=NAME_LIMIT).contains(&name.len()) && name.iter().all(allowed);
    fits.then(|| Line::Section(name.to_vec()))
}

/// An SV after another word than `$SETE` has no form.
fn change(operation: Operation, reader: &mut Reader) -> Option<Line> {
    match spaced(reader, variable)? {
        Variable::Sv(_) => None,
        variable => Some(Line::Change(operation, variable, value(reader)?)),
    }
}

fn fill(array: fn(u16) -> Array, reader: &mut Reader) -> Option<Line> {
    Some(Line::Fill(Fill {
        array: array(spaced(reader, |reader| reader.plain_number(ARRAYS))?),
        parameter: spaced(reader, |reader| {
            let named = reader.eat(b"P");
            reader.plain_number(PARAMETERS).filter(|_| named)
        })?,
        record: spaced(reader, index)?,
        entry: spaced(reader, index)?,
        count: spaced(reader, index)?,
    }))
}

/// Something with the one space before it.
fn spaced<'a, T>(
    reader: &mut Reader<'a>,
    read: impl FnOnce(&mut Reader<'a>) -> Option<T>,
) -> Option<T> {
    match reader.eat(b" ") {
        true => read(reader),
        false => None,
    }
}

fn value(reader: &mut Reader) -> Option<Argument> {
    spaced(reader, argument)
}

/// An argument that may be left out.
fn optional(reader: &mut Reader) -> Option<Option<Argument>> {
    match reader.at_end() {
        true => Some(None),
        false => value(reader).map(Some),
    }
}

/// `$PH` is `$PH1`; `rest` is nothing, or a space and the text.
fn heading(word: &[u8], rest: &[u8]) -> Option<Line> {
    let number = match &word[b"$PH".len()..] {
        [] => 1,
        [digit @ b'1'..=b'9'] => digit - b'0',
        _ => return None,
    };
    let text = match rest.strip_prefix(b" ") {
        Some(text) => Some(pieces(text, word.len() + 1)?),
        None => None,
    };
    Some(Line::Heading(number, text))
}

/// The pieces of a text that, with what is before it, is at most 132 wide.
fn pieces(text: &[u8], before: usize) -> Option<Vec<Piece>> {
    let mut reader = Reader::new(text);
    let mut pieces = Vec::new();
    let mut width = before;
    while !reader.at_end() {
        let piece = match reader.eat(b"{") {
            true => field(&mut reader)?,
            false => Piece::Bytes(plain(&mut reader)?),
        };
        width += match &piece {
            Piece::Bytes(bytes) => bytes.len(),
            Piece::Field { width, .. } => usize::from(*width),
        };
        pieces.push(piece);
    }
    (width <= LINE_LIMIT).then_some(pieces)
}

/// The text up to the next field; a closing brace there is refused.
fn plain(reader: &mut Reader) -> Option<Vec<u8>> {
    let bytes = reader.until(b"{}");
    (!bytes.is_empty()).then(|| bytes.to_vec())
}

/// The rest of a field whose opening brace is read.
fn field(reader: &mut Reader) -> Option<Piece> {
    let argument = argument(reader)?;
    if !reader.eat(b",") {
        return None;
    }
    let width = reader.plain_number(WIDTH_LIMIT)? as u8;
    let places = match reader.eat(b".") {
        true => Some(places(reader)?),
        false => None,
    };
    reader.eat(b"}").then_some(Piece::Field {
        argument,
        width,
        places,
    })
}

/// One digit, 0–6.
fn places(reader: &mut Reader) -> Option<u8> {
    match reader.digits(1)? {
        [digit @ b'0'..=b'6'] => Some(digit - b'0'),
        _ => None,
    }
}
