//! Reports.

use crate::ffi::{self, Asking};
use crate::refusal::ended;
use crate::{Question, Refusal, Refused, Store, Template};

/// The bytes of text that [`report`] has room for, as many as the program `sheet`.
pub const TEXT_BYTES: usize = 65_536;
/// The questions that [`report`] has places for, as many as the program `sheet`.
pub const READ_PLACES: usize = 4_096;

/// What a report ends with. The text printed and the questions asked before a refusal stand.
///
/// ```
/// use station::{report, Refusal, Store, Template};
///
/// let template = Template::check("$SEC A\nprinted\n$SETD IV1 0\nnot printed\n")?;
/// let report = report(&template, "A", &Store::new());
/// assert_eq!((report.number(), report.line, report.pages), (12, 3, 1));
/// assert_eq!(report.refusal, Some(Refusal::ZeroDivisor));
/// assert_eq!(report.text, "printed\n");
/// assert!(report.reads.is_empty());
/// # Ok::<(), station::Refused>(())
/// ```
#[derive(Clone, Debug, PartialEq, Eq)]
pub struct Report {
    /// Why it ended, where it isn't a success.
    pub refusal: Option<Refusal>,
    /// The line that the refusal names, 0 where there is none.
    pub line: u32,
    /// PAGENUM at the end.
    pub pages: u32,
    /// The text printed: the bytes 0x20–0x7E, 0x0A and 0x0C.
    pub text: String,
    /// The read list: the questions asked, in asking order, repeats included.
    pub reads: Vec<Question>,
}

impl Report {
    /// Document 01's number, 0 for a success.
    ///
    /// ```
    /// let template = station::Template::check("$SEC A\n")?;
    /// let store = station::Store::new();
    /// assert_eq!(station::report(&template, "A", &store).number(), 0);
    /// assert_eq!(station::report(&template, "B", &store).number(), 6);
    /// # Ok::<(), station::Refused>(())
    /// ```
    pub fn number(&self) -> u32 {
        self.refusal.map_or(0, Refusal::number)
    }

    /// The report's refusal with its line, where it isn't a success.
    ///
    /// ```
    /// let template = station::Template::check("$SEC A\n$SETD IV1 0\n")?;
    /// let refused = station::report(&template, "A", &station::Store::new()).refused().unwrap();
    /// assert_eq!(refused.to_string(), "line 2: 12: The divisor is zero.");
    /// # Ok::<(), station::Refused>(())
    /// ```
    pub fn refused(&self) -> Option<Refused> {
        let line = self.line;
        self.refusal.map(|refusal| Refused { refusal, line })
    }
}

/// The report of a template's section on a store; the empty name selects all sections.
///
/// ```
/// use station::{report, Key, Question, Store, Template};
///
/// let template = Template::check("$SEC A\nSample {P2,9}|\n")?;
/// let mut store = Store::new();
/// store.put(Key::parameter(2), "S-2231")?;
/// let report = report(&template, "A", &store);
/// assert_eq!((report.number(), report.text.as_str()), (0, "Sample S-2231   |\n"));
/// assert_eq!(report.reads, [Question::Cell(Key::parameter(2))]);
/// # Ok::<(), Box<dyn std::error::Error>>(())
/// ```
pub fn report(template: &Template, section: impl AsRef<[u8]>, store: &Store) -> Report {
    report_within(template, section, store, TEXT_BYTES, READ_PLACES)
}

/// The same, with so many bytes of text and so many places on the read list.
///
/// ```
/// use station::{report_within, Refusal, Store, Template};
///
/// let template = Template::check("$SEC A\none\ntwo\n")?;
/// let report = report_within(&template, "A", &Store::new(), 6, 0);
/// assert_eq!((report.refusal, report.line), (Some(Refusal::TextFull), 3));
/// assert_eq!(report.text, "one\n");
/// # Ok::<(), station::Refused>(())
/// ```
pub fn report_within(
    template: &Template,
    section: impl AsRef<[u8]>,
    store: &Store,
    text_bytes: usize,
    places: usize,
) -> Report {
    let mut text = vec![0; text_bytes];
    let mut reads = vec![Asking::default(); places];
    let (buffer, length) = store.lent();
    let end = ffi::report(
        template.as_bytes(),
        section.as_ref(),
        buffer,
        length,
        &mut text,
        &mut reads,
    );
    let printed = text[..end.text_bytes].iter();
    let asked = reads[..end.questions].iter();
    Report {
        refusal: ended(end.number).err(),
        line: end.line,
        pages: end.pages,
        text: printed.map(|&byte| char::from(byte)).collect(),
        reads: asked.map(|&question| question.into()).collect(),
    }
}
