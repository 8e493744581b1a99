//! The run: executing lines, working out arguments, printing.

use crate::arguments::{Argument, Array, Filter, Index, Source};
use crate::endings::{
    ARGUMENT_MISSING, INDEX_RANGE, LIMIT_BROKEN, LIST_FULL, OUT_OF_RANGE, SUCCESS, TEXT_FULL,
    TOO_MANY_LINES,
};
use crate::fields::field;
use crate::lines::{Fill, Line, Piece, Test};
use crate::numbers::{compare, Number};
use crate::pages::Page;
use crate::report::Report;
use crate::store::{Answer, Question, Store, DATASOURCES, INDEX_LIMIT};
use crate::template::Program;
use crate::values::{strings_agree, Value};
use crate::variables::Variables;
use std::cmp::Ordering;
use std::ops::RangeInclusive;

/// The lines a run may execute.
const EXECUTED_LIMIT: usize = 50_000;
/// The most elements `$REC` and `$TBL` fetch.
const COUNT_LIMIT: u32 = 64;
/// The heading lines.
const HEADINGS: usize = 9;

const FORM_FEED: u8 = 0x0C;
const LINE_END: u8 = 0x0A;

/// A run that ends early: its number and the line it names, counted from 0.
struct Stop {
    number: u32,
    line: usize,
}

/// An open table: LOOP, and the number it is not to exceed.
struct Table {
    counter: i64,
    last: i64,
}

/// The state of a run.
pub(crate) struct Machine<'a> {
    program: &'a Program,
    store: &'a Store,
    text: &'a mut [u8],
    text_bytes: usize,
    reads: &'a mut [Question],
    questions: usize,
    page: Page,
    datasource: u32,
    variables: Variables,
    tables: Vec<Table>,
    /// For each heading that is defined, its line.
    headings: [Option<usize>; HEADINGS],
    form_feeds: bool,
}

impl<'a> Machine<'a> {
    pub fn new(
        program: &'a Program,
        store: &'a Store,
        text: &'a mut [u8],
        reads: &'a mut [Question],
    ) -> Machine<'a> {
        Machine {
            program,
            store,
            text,
            text_bytes: 0,
            reads,
            questions: 0,
            page: Page::fresh(),
            datasource: 1,
            variables: Variables::fresh(),
            tables: Vec::new(),
            headings: [None; HEADINGS],
            form_feeds: true,
        }
    }

    /// Runs the selected lines to their end or to a refusal.
    pub fn run(mut self) -> Report {
        let (number, line) = match self.execute_all() {
            Ok(()) => (SUCCESS, 0),
            Err(stop) => (stop.number, stop.line as u32 + 1),
        };
        Report {
            number,
            line,
            pages: self.page.number,
            text_bytes: self.text_bytes,
            questions: self.questions,
        }
    }

    fn execute_all(&mut self) -> Result<(), Stop> {
        let mut at = self.program.selected.start;
        let mut executed = 0;
        while at < self.program.selected.end {
            if executed == EXECUTED_LIMIT {
                let (number, line) = (TOO_MANY_LINES, at);
                return Err(Stop { number, line });
            }
            executed += 1;
            at = self.execute(at)?;
        }
        Ok(())
    }

    /// Executes a line and gives the one where the run continues.
    fn execute(&mut self, at: usize) -> Result<usize, Stop> {
        let line = &self.program.lines[at];
        if let Line::Text(pieces) = line {
            self.text_line(at, pieces)?;
            return Ok(at + 1);
        }
        self.command(at, line).map_err(naming(at))
    }

    /// A command either goes on to the next line or jumps.
    fn command(&mut self, at: usize, line: &Line) -> Result<usize, u32> {
        let goes_on = match line {
            Line::Test(test) => self.holds(test)?,
            Line::Else => false,
            Line::BeginTable(last) => self.table_opens(last)?,
            Line::EndTable(step) => self.table_ends(step.as_ref())?,
            _ => {
                self.act(at, line)?;
                true
            }
        };
        Ok(if goes_on {
            at + 1
        } else {
            self.program.jumps[at]
        })
    }

    /// The commands that never jump.
    fn act(&mut self, at: usize, line: &Line) -> Result<(), u32> {
        match line {
            Line::Section(_) => self.begin_section(),
            Line::Set(variable, argument) => {
                let value = self.value(argument)?;
                self.variables.set(*variable, &value)?;
            }
            Line::Change(operation, variable, argument) => {
                let value = self.value(argument)?;
                self.variables.change(*operation, *variable, &value)?;
            }
            Line::Fill(fill) => self.fill(fill)?,
            Line::Datasource(index) => self.datasource = self.index(*index, 1..=DATASOURCES)?,
            Line::NoFormFeed => self.form_feeds = false,
            Line::NewPage(lines) => self.new_page(lines.as_ref())?,
            Line::Heading(number, text) => {
                self.headings[usize::from(*number) - 1] = text.is_some().then_some(at);
            }
            // $REM and $ENDIF; the others are executed elsewhere.
            _ => {}
        }
        Ok(())
    }

    /// Page and datasource go on.
    fn begin_section(&mut self) {
        self.variables = Variables::fresh();
        self.headings = [None; HEADINGS];
        self.form_feeds = true;
    }

    fn holds(&mut self, test: &Test) -> Result<bool, u32> {
        match test {
            Test::NonZero(argument) => Ok(!self.is_zero(argument)?),
            Test::Zero(argument) => self.is_zero(argument),
            Test::Numbers(relation, first, second) => {
                let (first, second) = self.values(first, second)?;
                Ok(relation.holds(compare(first.number()?, second.number()?)))
            }
            Test::Strings {
                ignore_case,
                first,
                second,
            } => {
                let (first, second) = self.values(first, second)?;
                Ok(strings_agree(
                    first.string()?,
                    second.string()?,
                    *ignore_case,
                ))
            }
        }
    }

    fn is_zero(&mut self, argument: &Argument) -> Result<bool, u32> {
        let number = self.value(argument)?.number()?;
        Ok(compare(number, Number::Integer(0)) == Ordering::Equal)
    }

    /// Opens a table unless it has no pass.
    fn table_opens(&mut self, last: &Argument) -> Result<bool, u32> {
        let last = self.value(last)?.integer()?;
        let opens = last >= 1;
        if opens {
            self.tables.push(Table { counter: 1, last });
        }
        Ok(opens)
    }

    /// Adds to the counter and closes the table when that exceeds n.
    fn table_ends(&mut self, step: Option<&Argument>) -> Result<bool, u32> {
        let step = match step {
            Some(argument) => self.value(argument)?.integer()?,
            None => 1,
        };
        if step < 1 {
            return Err(OUT_OF_RANGE);
        }
        let Some(table) = self.tables.last_mut() else {
            return Ok(true); // Not reached: $ET has its $BT.
        };
        // n is at most 2,000,000,000, so a counter past that has exceeded it.
        table.counter += step;
        let ends = table.counter > table.last;
        if ends {
            self.tables.pop();
        }
        Ok(ends)
    }

    /// `$REC` and `$TBL`: every index first, then one question after another.
    fn fill(&mut self, fill: &Fill) -> Result<(), u32> {
        let record = self.index(fill.record, 0..=INDEX_LIMIT)?;
        let entry = self.index(fill.entry, 0..=INDEX_LIMIT)?;
        let count = self.index(fill.count, 0..=COUNT_LIMIT)?;
        let rising = match fill.array {
            Array::R(_) => record,
            Array::T(_) => entry,
        };
        if count > 0 && rising + count - 1 > INDEX_LIMIT {
            return Err(INDEX_RANGE);
        }
        let mut elements = Vec::new();
        for step in 0..count {
            let (record, entry) = match fill.array {
                Array::R(_) => (record + step, entry),
                Array::T(_) => (record, entry + step),
            };
            elements.push(self.ask(1, fill.parameter, record, entry)?);
        }
        self.variables.fill(fill.array, elements);
        Ok(())
    }

    fn new_page(&mut self, lines: Option<&Argument>) -> Result<(), u32> {
        let breaks = match lines {
            Some(argument) => {
                i64::from(self.page.lines_left()) < self.value(argument)?.integer()?
            }
            None => true,
        };
        match breaks {
            true => self.break_page(),
            false => Ok(()),
        }
    }

    /// A break, each heading and the line itself, one after another.
    fn text_line(&mut self, at: usize, pieces: &[Piece]) -> Result<(), Stop> {
        if self.page.is_full() {
            self.break_page().map_err(naming(at))?;
        }
        if self.page.is_empty() {
            self.print_headings(at)?;
        }
        self.print(pieces).map_err(naming(at))
    }

    /// Prints headings 1 to the highest defined, then a blank line. A defined
    /// heading's refusal names its own line, a blank one's the text line due.
    fn print_headings(&mut self, due: usize) -> Result<(), Stop> {
        let Some(highest) = self.headings.iter().rposition(Option::is_some) else {
            return Ok(());
        };
        for number in 0..=highest {
            match self.headings[number] {
                Some(at) => self.print(self.heading(at)).map_err(naming(at))?,
                None => self.print(&[]).map_err(naming(due))?,
            }
        }
        self.print(&[]).map_err(naming(due))
    }

    fn heading(&self, at: usize) -> &'a [Piece] {
        match &self.program.lines[at] {
            Line::Heading(_, Some(pieces)) => pieces,
            _ => &[],
        }
    }

    /// Works out and prints one line.
    fn print(&mut self, pieces: &[Piece]) -> Result<(), u32> {
        let mut values = Vec::new();
        for piece in pieces {
            if let Piece::Field { argument, .. } = piece {
                values.push(self.fetch(argument)?);
            }
        }
        let mut values = values.into_iter();
        let mut line = Vec::new();
        for piece in pieces {
            match piece {
                Piece::Bytes(bytes) => line.extend(bytes),
                Piece::Field {
                    argument,
                    width,
                    places,
                } => {
                    let value = values.next().unwrap_or(Value::Missing);
                    line.extend(field(&value.filtered(argument.filter)?, *width, *places));
                }
            }
        }
        line.push(LINE_END);
        self.write(&line)?;
        self.page = self.page.after_line();
        Ok(())
    }

    fn break_page(&mut self) -> Result<(), u32> {
        if self.form_feeds {
            self.write(&[FORM_FEED])?;
        }
        self.page = self.page.after_break();
        Ok(())
    }

    /// Writes bytes whole, or not at all.
    fn write(&mut self, bytes: &[u8]) -> Result<(), u32> {
        let rest = &mut self.text[self.text_bytes..];
        let place = rest.get_mut(..bytes.len()).ok_or(TEXT_FULL)?;
        place.copy_from_slice(bytes);
        self.text_bytes += bytes.len();
        Ok(())
    }

    /// A command's only argument.
    fn value(&mut self, argument: &Argument) -> Result<Value, u32> {
        let value = self.fetch(argument)?;
        present(&value)?;
        value.filtered(argument.filter)
    }

    /// A command's two arguments: 8 and 9 left to right, then 10, then 11.
    fn values(&mut self, first: &Argument, second: &Argument) -> Result<(Value, Value), u32> {
        let first_value = self.fetch(first)?;
        let second_value = self.fetch(second)?;
        present(&first_value)?;
        present(&second_value)?;
        Ok((
            first_value.filtered(first.filter)?,
            second_value.filtered(second.filter)?,
        ))
    }

    /// An argument's value before a filter is laid on it; |RECCNT and |ENTCNT
    /// are questions themselves.
    fn fetch(&mut self, argument: &Argument) -> Result<Value, u32> {
        Ok(match &argument.source {
            Source::Integer(n) => Value::Integer(*n),
            Source::Decimal(n) => Value::Decimal(*n),
            Source::String(bytes) => Value::String(bytes.clone()),
            Source::Variable(variable) => self.variables.value(*variable),
            Source::PageNum => Value::Integer(self.page.number.into()),
            Source::LineNum => Value::Integer(self.page.line.into()),
            Source::Loop => Value::Integer(self.counter()),
            Source::Array(array) => self.variables.element(*array, self.counter()),
            Source::Cell {
                parameter,
                record,
                entry,
            } => {
                let record = self.part(*record)?;
                let entry = self.part(*entry)?;
                let kind = match argument.filter {
                    Some(Filter::RecCnt) => 2,
                    Some(Filter::EntCnt) => 3,
                    _ => 1,
                };
                self.ask(kind, *parameter, record, entry)?
            }
        })
    }

    /// LOOP: the innermost table's counter, 0 outside.
    fn counter(&self) -> i64 {
        self.tables.last().map_or(0, |table| table.counter)
    }

    /// A part of a cell; absent ones are 0.
    fn part(&self, index: Option<Index>) -> Result<u32, u32> {
        match index {
            Some(index) => self.index(index, 0..=INDEX_LIMIT),
            None => Ok(0),
        }
    }

    /// An index's value, or 8.
    fn index(&self, index: Index, range: RangeInclusive<u32>) -> Result<u32, u32> {
        let value = match index {
            Index::Literal(n) => n.into(),
            Index::Iv(n) => self.variables.integer(n),
            Index::Loop => self.counter(),
        };
        let value = u32::try_from(value).ok();
        value.filter(|n| range.contains(n)).ok_or(INDEX_RANGE)
    }

    /// Asks in the selected datasource, if the read list has a place.
    fn ask(&mut self, kind: u32, parameter: u16, record: u32, entry: u32) -> Result<Value, u32> {
        let question = Question {
            kind,
            datasource: self.datasource,
            parameter: parameter.into(),
            record,
            entry,
        };
        let place = self.reads.get_mut(self.questions).ok_or(LIST_FULL)?;
        *place = question;
        self.questions += 1;
        // Questions built from indexes in range always keep the limits.
        Ok(match self.store.answer(question).ok_or(LIMIT_BROKEN)? {
            Answer::Cell(value) => value,
            Answer::Number(n) => Value::Integer(n.into()),
        })
    }
}

/// Turns a number into a stop that names a line.
fn naming(line: usize) -> impl Fn(u32) -> Stop {
    move |number| Stop { number, line }
}

/// Refuses a missing argument of a command.
fn present(value: &Value) -> Result<(), u32> {
    match value {
        Value::Missing => Err(ARGUMENT_MISSING),
        _ => Ok(()),
    }
}
