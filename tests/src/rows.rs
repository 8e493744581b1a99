//! The second interpreter's parsed lines as the rows of crates/form_codes.

use crate::line::Row;
use second::arguments::{Argument, Array, Filter, Index, Source, Variable};
use second::lines::{Fill, Line, Piece, Relation, Test};
use second::numbers::Operation;

/// What an argument is, five numbers of it, its filter.
type Seven = [u64; 7];

const NOTHING: Seven = [0; 7];

/// The line that the rows are of, and the place up to which its strings are passed.
///
/// The second interpreter keeps the bytes of strings, not their places: a string lies between the next two quotes.
struct Places<'a> {
    line: &'a [u8],
    at: usize,
}

impl Places<'_> {
    /// The place behind the next such byte.
    fn behind(&mut self, byte: u8) -> u64 {
        let found = self.line[self.at..].iter().position(|&b| b == byte);
        self.at += found.expect("the line has this byte") + 1;
        self.at as u64
    }

    fn string(&mut self, bytes: &[u8]) -> (u64, u64) {
        let (start, end) = (self.behind(b'"'), self.behind(b'"') - 1);
        assert_eq!(&self.line[start as usize..end as usize], bytes);
        (start, end)
    }

    fn argument(&mut self, argument: &Argument) -> Seven {
        let mut codes = match &argument.source {
            Source::Integer(n) => [1, (*n < 0).into(), n.unsigned_abs(), 0, 0, 0, 0],
            Source::Decimal(n) => [2, (*n < 0).into(), n.unsigned_abs(), 0, 0, 0, 0],
            Source::String(bytes) => {
                let (start, end) = self.string(bytes);
                [3, start, end, 0, 0, 0, 0]
            }
            Source::Variable(variable) => self::variable(*variable),
            Source::PageNum => [7, 0, 0, 0, 0, 0, 0],
            Source::LineNum => [8, 0, 0, 0, 0, 0, 0],
            Source::Loop => [9, 0, 0, 0, 0, 0, 0],
            Source::Array(Array::R(n)) => [10, (*n).into(), 0, 0, 0, 0, 0],
            Source::Array(Array::T(n)) => [11, (*n).into(), 0, 0, 0, 0, 0],
            Source::Cell {
                parameter,
                record,
                entry,
            } => cell(*parameter, *record, *entry),
        };
        codes[6] = argument.filter.map_or(0, filter);
        codes
    }

    fn optional(&mut self, argument: &Option<Argument>) -> Seven {
        argument.as_ref().map_or(NOTHING, |a| self.argument(a))
    }
}

fn variable(variable: Variable) -> Seven {
    let (kind, n) = match variable {
        Variable::Iv(n) => (4, n),
        Variable::Fv(n) => (5, n),
        Variable::Sv(n) => (6, n),
    };
    [kind, n.into(), 0, 0, 0, 0, 0]
}

fn cell(parameter: u16, record: Option<Index>, entry: Option<Index>) -> Seven {
    let kind = 12 + u64::from(record.is_some()) + u64::from(entry.is_some());
    let [r, e] = [record, entry].map(|part| part.map_or([0, 0], index));
    [kind, parameter.into(), r[0], r[1], e[0], e[1], 0]
}

fn index(index: Index) -> [u64; 2] {
    match index {
        Index::Literal(n) => [1, n.into()],
        Index::Iv(n) => [2, n.into()],
        Index::Loop => [3, 0],
    }
}

fn filter(filter: Filter) -> u64 {
    match filter {
        Filter::Abs => 1,
        Filter::Int => 2,
        Filter::Upper => 3,
        Filter::Len => 4,
        Filter::RecCnt => 5,
        Filter::EntCnt => 6,
    }
}

fn operation(operation: Operation) -> u64 {
    match operation {
        Operation::Add => 2,
        Operation::Subtract => 3,
        Operation::Multiply => 4,
        Operation::Divide => 5,
    }
}

fn relation(relation: Relation) -> u64 {
    match relation {
        Relation::Equal => 3,
        Relation::NotEqual => 4,
        Relation::Less => 5,
        Relation::LessOrEqual => 6,
        Relation::Greater => 7,
        Relation::GreaterOrEqual => 8,
    }
}

fn row(form: u64, number: u64, first: Seven, second: Seven) -> Row {
    let mut row = [0; 16];
    row[0] = form;
    row[1] = number;
    row[2..9].copy_from_slice(&first);
    row[9..].copy_from_slice(&second);
    row
}

fn bare(form: u64) -> Row {
    row(form, 0, NOTHING, NOTHING)
}

fn fill(fill: &Fill) -> Row {
    let (form, n) = match fill.array {
        Array::R(n) => (11, n),
        Array::T(n) => (12, n),
    };
    let [r, e, c] = [fill.record, fill.entry, fill.count].map(index);
    let first = [fill.parameter.into(), r[0], r[1], e[0], e[1], c[0], c[1]];
    row(form, n.into(), first, NOTHING)
}

fn test(places: &mut Places, test: &Test) -> Row {
    match test {
        Test::Zero(a) => row(4, 0, places.argument(a), NOTHING),
        Test::NonZero(a) => row(5, 0, places.argument(a), NOTHING),
        Test::Numbers(how, a, b) => {
            let (first, second) = (places.argument(a), places.argument(b));
            row(6, relation(*how), first, second)
        }
        Test::Strings {
            ignore_case,
            first,
            second,
        } => {
            let (first, second) = (places.argument(first), places.argument(second));
            row(6, 1 + u64::from(*ignore_case), first, second)
        }
    }
}

/// The row of a line as the second interpreter reads it.
pub fn line(bytes: &[u8], parsed: Option<&Line>) -> Row {
    let mut places = Places { line: bytes, at: 0 };
    let Some(parsed) = parsed else {
        return bare(0);
    };
    match parsed {
        Line::Text(_) => bare(1),
        Line::Section(name) => {
            let start = places.behind(b' ');
            let end = start + name.len() as u64;
            row(2, 0, [start, end, 0, 0, 0, 0, 0], NOTHING)
        }
        Line::Set(v, a) => row(3, 1, variable(*v), places.argument(a)),
        Line::Change(o, v, a) => row(3, operation(*o), variable(*v), places.argument(a)),
        Line::Test(t) => test(&mut places, t),
        Line::Else => bare(7),
        Line::EndIf => bare(8),
        Line::BeginTable(a) => row(9, 0, places.argument(a), NOTHING),
        Line::EndTable(a) => row(10, 0, places.optional(a), NOTHING),
        Line::Fill(f) => fill(f),
        Line::Datasource(i) => {
            let [kind, n] = index(*i);
            row(13, 0, [kind, n, 0, 0, 0, 0, 0], NOTHING)
        }
        Line::NoFormFeed => bare(14),
        Line::NewPage(a) => row(15, 0, places.optional(a), NOTHING),
        Line::Heading(n, Some(_)) => {
            let start = places.behind(b' ');
            row(16, (*n).into(), [start, 0, 0, 0, 0, 0, 0], NOTHING)
        }
        Line::Heading(n, None) => row(17, (*n).into(), NOTHING, NOTHING),
        Line::Remark => bare(18),
    }
}

/// The rows of the pieces of a text that begins at a place, each with the place where it begins.
pub fn pieces(bytes: &[u8], from: usize, pieces: &[Piece]) -> Vec<(usize, Row)> {
    let mut places = Places {
        line: bytes,
        at: from,
    };
    let mut rows = Vec::new();
    for piece in pieces {
        match piece {
            Piece::Bytes(plain) => {
                for &byte in plain {
                    let (at, next) = (places.at, places.behind(byte));
                    rows.push((at, row(1, next, [byte.into(), 0, 0, 0, 0, 0, 0], NOTHING)));
                }
            }
            Piece::Field {
                argument,
                width,
                places: d,
            } => {
                let at = places.at;
                let first = places.argument(argument);
                let next = places.behind(b'}');
                let (said, d) = (d.is_some().into(), d.unwrap_or(0).into());
                let second = [(*width).into(), said, d, 0, 0, 0, 0];
                rows.push((at, row(2, next, first, second)));
            }
        }
    }
    rows
}
