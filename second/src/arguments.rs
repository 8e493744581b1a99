//! Arguments, their parsed form, and reading them.

use crate::numbers::{DECIMAL_LIMIT, INTEGER_LIMIT, MILLION};
use crate::reader::{decimal_value, Reader};
use crate::values::STRING_LIMIT;

/// The variables of each kind.
pub const VARIABLES: u16 = 99;
/// The array variables R, and as many T.
pub const ARRAYS: u16 = 10;
/// The highest parameter.
pub const PARAMETERS: u16 = u16::MAX;

/// A variable a `$SET` command can change.
#[derive(Clone, Copy, Debug, PartialEq, Eq)]
pub enum Variable {
    Iv(u16),
    Fv(u16),
    Sv(u16),
}

/// Rn or Tn.
#[derive(Clone, Copy, Debug, PartialEq, Eq)]
pub enum Array {
    R(u16),
    T(u16),
}

/// An index: 1–3 digits, IVn or LOOP.
#[derive(Clone, Copy, Debug, PartialEq, Eq)]
pub enum Index {
    Literal(u16),
    Iv(u16),
    Loop,
}

/// Where an argument's value comes from.
#[derive(Clone, Debug, PartialEq, Eq)]
pub enum Source {
    Integer(i64),
    /// A count of millionths.
    Decimal(i64),
    String(Vec<u8>),
    Variable(Variable),
    PageNum,
    LineNum,
    Loop,
    Array(Array),
    /// Pn, Pn.r or Pn.r.e.
    Cell {
        parameter: u16,
        record: Option<Index>,
        entry: Option<Index>,
    },
}

/// A filter after an argument.
#[derive(Clone, Copy, Debug, PartialEq, Eq)]
pub enum Filter {
    Abs,
    Int,
    Upper,
    Len,
    RecCnt,
    EntCnt,
}

/// A source and the filter behind it.
#[derive(Clone, Debug, PartialEq, Eq)]
pub struct Argument {
    pub source: Source,
    pub filter: Option<Filter>,
}

/// Reads an argument; what follows it is left to the caller.
pub(crate) fn argument(reader: &mut Reader) -> Option<Argument> {
    let source = source(reader)?;
    let filter = match reader.eat(b"|") {
        true => Some(filter(reader)?),
        false => None,
    };
    filter_fits(&source, filter).then_some(Argument { source, filter })
}

/// Reads IVn, FVn or SVn.
pub(crate) fn variable(reader: &mut Reader) -> Option<Variable> {
    let kind = variable_kind(reader)?;
    reader.plain_number(VARIABLES).map(kind)
}

/// Reads a variable's two letters, or nothing.
fn variable_kind(reader: &mut Reader) -> Option<fn(u16) -> Variable> {
    if reader.eat(b"IV") {
        Some(Variable::Iv)
    } else if reader.eat(b"FV") {
        Some(Variable::Fv)
    } else if reader.eat(b"SV") {
        Some(Variable::Sv)
    } else {
        None
    }
}

/// Reads an index, which takes no filter.
pub(crate) fn index(reader: &mut Reader) -> Option<Index> {
    if reader.eat(b"IV") {
        reader.plain_number(VARIABLES).map(Index::Iv)
    } else if reader.eat(b"LOOP") {
        Some(Index::Loop)
    } else {
        let digits = reader.digits(3)?;
        Some(Index::Literal(decimal_value(digits) as u16))
    }
}

fn source(reader: &mut Reader) -> Option<Source> {
    if reader.eat(b"PAGENUM") {
        Some(Source::PageNum)
    } else if reader.eat(b"LINENUM") {
        Some(Source::LineNum)
    } else if reader.eat(b"LOOP") {
        Some(Source::Loop)
    } else if reader.eat(b"\"") {
        string(reader)
    } else if reader.eat(b"R") {
        let number = reader.plain_number(ARRAYS)?;
        Some(Source::Array(Array::R(number)))
    } else if reader.eat(b"T") {
        let number = reader.plain_number(ARRAYS)?;
        Some(Source::Array(Array::T(number)))
    } else if let Some(kind) = variable_kind(reader) {
        let number = reader.plain_number(VARIABLES)?;
        Some(Source::Variable(kind(number)))
    } else if reader.eat(b"P") {
        cell(reader)
    } else {
        literal(reader)
    }
}

/// The rest of a string whose opening quote is read.
fn string(reader: &mut Reader) -> Option<Source> {
    let bytes = reader.until(b"\"");
    let closed = reader.eat(b"\"");
    (closed && bytes.len() <= STRING_LIMIT).then(|| Source::String(bytes.to_vec()))
}

/// The rest of a cell whose P is read.
fn cell(reader: &mut Reader) -> Option<Source> {
    let parameter = reader.plain_number(PARAMETERS)?;
    let mut parts = [None, None];
    for part in &mut parts {
        if reader.eat(b".") {
            *part = Some(index(reader)?);
        } else {
            break;
        }
    }
    let [record, entry] = parts;
    Some(Source::Cell {
        parameter,
        record,
        entry,
    })
}

/// An integer, or a decimal with a point, within its range.
fn literal(reader: &mut Reader) -> Option<Source> {
    let sign = if reader.eat(b"-") { -1 } else { 1 };
    let whole = decimal_value(reader.digits(10)?);
    if !reader.eat(b".") {
        return (whole <= INTEGER_LIMIT).then_some(Source::Integer(sign * whole));
    }
    let digits = reader.digits(6)?;
    let missing_places = 6 - digits.len() as u32;
    let millionths = whole * MILLION + decimal_value(digits) * 10_i64.pow(missing_places);
    (millionths <= DECIMAL_LIMIT).then_some(Source::Decimal(sign * millionths))
}

fn filter(reader: &mut Reader) -> Option<Filter> {
    let names: [(&[u8], Filter); 6] = [
        (b"ABS", Filter::Abs),
        (b"INT", Filter::Int),
        (b"UPPER", Filter::Upper),
        (b"LEN", Filter::Len),
        (b"RECCNT", Filter::RecCnt),
        (b"ENTCNT", Filter::EntCnt),
    ];
    let found = names.into_iter().find(|(name, _)| reader.eat(name));
    found.map(|(_, filter)| filter)
}

/// |RECCNT stands on Pn, |ENTCNT on Pn.r, others after any argument.
fn filter_fits(source: &Source, filter: Option<Filter>) -> bool {
    let parts = match source {
        Source::Cell { record, entry, .. } => Some((record.is_some(), entry.is_some())),
        _ => None,
    };
    match filter {
        Some(Filter::RecCnt) => parts == Some((false, false)),
        Some(Filter::EntCnt) => parts == Some((true, false)),
        _ => true,
    }
}
