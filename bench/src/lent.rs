//! A report by ours and by the second interpreter, in the same buffers.

use second::Question;
use station_tests::report::{asked, report, Asked};

const ROOM: usize = 65_536;
const PLACES: usize = 4_096;

/// What a report is lent, for ours and for the second interpreter.
pub struct Lent {
    pub text: Vec<u8>,
    pub reads: Vec<Asked>,
    other: Vec<Question>,
}

impl Lent {
    pub fn new() -> Self {
        Lent {
            text: vec![0; ROOM],
            reads: vec![Asked::default(); PLACES],
            other: vec![Question::default(); PLACES],
        }
    }

    pub fn clear(&mut self) {
        self.text.fill(0);
        self.reads.fill(Asked::default());
        self.other.fill(Question::default());
    }

    pub fn ours(&mut self, template: &[u8], store: &[u8]) -> second::Report {
        self.ours_of(template, b"", store)
    }

    pub fn theirs(&mut self, template: &[u8], store: &[u8]) -> second::Report {
        self.theirs_of(template, b"", store)
    }

    pub fn ours_of(&mut self, template: &[u8], section: &[u8], store: &[u8]) -> second::Report {
        report(
            template,
            section,
            store,
            store.len(),
            &mut self.text,
            &mut self.reads,
        )
    }

    pub fn theirs_of(&mut self, template: &[u8], section: &[u8], store: &[u8]) -> second::Report {
        let length = store.len();
        second::report(
            template,
            section,
            store,
            length,
            &mut self.text,
            &mut self.other,
        )
    }

    /// Whether ours, here, and the second interpreter, there, left the same text and read list.
    pub fn agrees(&self, theirs: &Lent) -> bool {
        let reads = theirs.other.iter().map(|q| asked(*q));
        self.text == theirs.text && reads.eq(self.reads.iter().copied())
    }
}
