//! The report, and one call of it beside the second interpreter's: numbers, both buffers whole, and what lies behind them.

use second::{Question, Report};
use station::testing;

/// A question as C has it.
pub use station::testing::Asking as Asked;

/// The second interpreter's question as C has it.
pub fn asked(q: Question) -> Asked {
    Asked {
        kind: q.kind,
        datasource: q.datasource,
        parameter: q.parameter,
        record: q.record,
        entry: q.entry,
    }
}

/// And the other way round.
pub fn question(q: Asked) -> Question {
    Question {
        kind: q.kind,
        datasource: q.datasource,
        parameter: q.parameter,
        record: q.record,
        entry: q.entry,
    }
}

pub fn report(
    template: &[u8],
    section: &[u8],
    buffer: &[u8],
    length: usize,
    text: &mut [u8],
    reads: &mut [Asked],
) -> Report {
    let end = testing::report(template, section, buffer, length, text, reads);
    Report {
        number: end.number,
        line: end.line,
        pages: end.pages,
        text_bytes: end.text_bytes,
        questions: end.questions,
    }
}

/// What a report is handed: template, section, store buffer and the store's length in it.
#[derive(Clone, Copy)]
pub struct Call<'a> {
    pub template: &'a [u8],
    pub section: &'a [u8],
    pub buffer: &'a [u8],
    pub length: usize,
}

/// Bytes and places behind the lent ones, which no call may touch.
const BEHIND: usize = 64;

/// Buffers to lend to both interpreters, filled anew before each call.
pub struct Pair {
    text: Vec<u8>,
    other_text: Vec<u8>,
    reads: Vec<Asked>,
    other_reads: Vec<Question>,
    calls: u32,
}

impl Pair {
    /// Buffers of so many bytes and places at most.
    pub fn new(room: usize, places: usize) -> Self {
        Pair {
            text: vec![0; room + BEHIND],
            other_text: vec![0; room + BEHIND],
            reads: vec![Asked::default(); places + BEHIND],
            other_reads: vec![Question::default(); places + BEHIND],
            calls: 0,
        }
    }

    /// Fills both sides alike, and otherwise than for the call before, with no byte and no question of a report.
    fn refill(&mut self, room: usize, places: usize) {
        self.calls += 1;
        let byte = 0x80 + (self.calls % 0x80) as u8;
        let none = Asked {
            kind: 9 + self.calls % 1_000,
            datasource: 99,
            parameter: 99_999,
            record: 9_999,
            entry: 9_999,
        };
        self.text[..room + BEHIND].fill(byte);
        self.other_text[..room + BEHIND].fill(byte);
        self.reads[..places + BEHIND].fill(none);
        self.other_reads[..places + BEHIND].fill(question(none));
    }

    /// One report by both, in so many bytes and places; whether they agree in every number, byte and question, and the end.
    pub fn agrees(&mut self, call: Call, room: usize, places: usize) -> (bool, Report) {
        let Call {
            template,
            section,
            buffer,
            length,
        } = call;
        self.refill(room, places);
        let ours = report(
            template,
            section,
            buffer,
            length,
            &mut self.text[..room],
            &mut self.reads[..places],
        );
        let theirs = second::report(
            template,
            section,
            buffer,
            length,
            &mut self.other_text[..room],
            &mut self.other_reads[..places],
        );
        let same = ours == theirs
            && self.text[..room + BEHIND] == self.other_text[..room + BEHIND]
            && self.reads[..places + BEHIND]
                .iter()
                .zip(&self.other_reads)
                .all(|(a, b)| *a == asked(*b));
        (same, ours)
    }

    /// One report by both, which must agree.
    pub fn report(&mut self, call: Call, room: usize, places: usize) -> Report {
        let (same, ours) = self.agrees(call, room, places);
        assert!(
            same,
            "{ours:?} in {room} bytes and {places} places, length {}\nsection {:?}\nstore {:02x?}\ntemplate\n{}",
            call.length,
            String::from_utf8_lossy(call.section),
            call.buffer,
            String::from_utf8_lossy(call.template)
        );
        ours
    }

    /// The text and the questions of the last report.
    pub fn text(&self, report: &Report) -> &[u8] {
        &self.text[..report.text_bytes]
    }

    pub fn reads(&self, report: &Report) -> &[Asked] {
        &self.reads[..report.questions]
    }
}
