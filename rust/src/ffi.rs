//! The declarations of libstation.a, as station.h has them, and every `unsafe` of this crate.
//!
//! Each call is wrapped once, with slices for pointers and lengths. What the header asks of a caller then holds by the types:
//! slices and outputs that Rust lends don't overlap and aren't null, and nothing is kept after a call.

/// A question as C has it: `struct station_question`.
#[repr(C)]
#[derive(Clone, Copy, Debug, Default, PartialEq, Eq)]
pub struct Asking {
    /// 1 for a cell, 2 for a highest record, 3 for a highest entry.
    pub kind: u32,
    pub datasource: u32,
    pub parameter: u32,
    pub record: u32,
    pub entry: u32,
}

/// An answer as C hands it back: a kind, and what that kind needs.
#[derive(Clone, Copy, Debug, Default)]
pub struct Handed {
    /// 0 for missing, the kind of a cell, or 1 for a highest number.
    pub kind: u8,
    pub value: i64,
    pub place: usize,
    pub count: usize,
}

impl Handed {
    /// What stands here before a call: no answer, so that one that isn't written shows.
    pub const BEFORE: Handed = Handed {
        kind: u8::MAX,
        value: i64::MAX,
        place: usize::MAX,
        count: usize::MAX,
    };
}

/// What a report hands back beside its buffers.
#[derive(Clone, Copy, Debug, PartialEq, Eq)]
pub struct Ending {
    pub number: u32,
    pub line: u32,
    pub pages: u32,
    pub text_bytes: usize,
    pub questions: usize,
}

extern "C" {
    fn station_ask(
        buffer: *const u8,
        buffer_length: usize,
        length: usize,
        kind: u32,
        datasource: u32,
        parameter: u32,
        record: u32,
        entry: u32,
        answered: &mut u8,
        value: &mut i64,
        place: &mut usize,
        count: &mut usize,
    ) -> u32;
    fn station_put(
        buffer: *mut u8,
        buffer_length: usize,
        length: usize,
        cell: *const u8,
        cell_length: usize,
        left: &mut usize,
    ) -> u32;
    fn station_remove(
        buffer: *mut u8,
        buffer_length: usize,
        length: usize,
        key: *const u8,
        key_length: usize,
        left: &mut usize,
    ) -> u32;
    fn station_check(
        text: *const u8,
        text_length: usize,
        section: *const u8,
        section_length: usize,
        line: &mut u32,
        start: &mut u32,
    ) -> u32;
    fn station_report(
        template_bytes: *const u8,
        template_length: usize,
        section: *const u8,
        section_length: usize,
        buffer: *const u8,
        buffer_length: usize,
        length: usize,
        text: *mut u8,
        text_length: usize,
        reads: *mut Asking,
        places: usize,
        line: &mut u32,
        pages: &mut u32,
        text_bytes: &mut usize,
        questions: &mut usize,
    ) -> u32;
}

/// The number, and the answer handed back.
#[inline]
pub fn ask(buffer: &[u8], length: usize, q: Asking) -> (u32, Handed) {
    let mut h = Handed::BEFORE;
    let number = unsafe {
        station_ask(
            buffer.as_ptr(),
            buffer.len(),
            length,
            q.kind,
            q.datasource,
            q.parameter,
            q.record,
            q.entry,
            &mut h.kind,
            &mut h.value,
            &mut h.place,
            &mut h.count,
        )
    };
    (number, h)
}

/// The number, and the store's length afterwards.
#[inline]
pub fn put(buffer: &mut [u8], length: usize, cell: &[u8]) -> (u32, usize) {
    let mut left = usize::MAX;
    let number = unsafe {
        station_put(
            buffer.as_mut_ptr(),
            buffer.len(),
            length,
            cell.as_ptr(),
            cell.len(),
            &mut left,
        )
    };
    (number, left)
}

/// The number, and the store's length afterwards.
#[inline]
pub fn remove(buffer: &mut [u8], length: usize, key: &[u8]) -> (u32, usize) {
    let mut left = usize::MAX;
    let number = unsafe {
        station_remove(
            buffer.as_mut_ptr(),
            buffer.len(),
            length,
            key.as_ptr(),
            key.len(),
            &mut left,
        )
    };
    (number, left)
}

/// The number and the line of checks 2 to 6, and the line that a run starts with.
#[inline]
pub fn check_run(template: &[u8], section: &[u8]) -> (u32, u32, u32) {
    let (mut line, mut start) = (u32::MAX, u32::MAX);
    let number = unsafe {
        station_check(
            template.as_ptr(),
            template.len(),
            section.as_ptr(),
            section.len(),
            &mut line,
            &mut start,
        )
    };
    (number, line, start)
}

/// The number and the line of checks 2 to 6.
#[inline]
pub fn check(template: &[u8], section: &[u8]) -> (u32, u32) {
    let (number, line, _) = check_run(template, section);
    (number, line)
}

/// A report in lent buffers.
#[inline]
pub fn report(
    template: &[u8],
    section: &[u8],
    buffer: &[u8],
    length: usize,
    text: &mut [u8],
    reads: &mut [Asking],
) -> Ending {
    let (mut line, mut pages) = (u32::MAX, u32::MAX);
    let (mut text_bytes, mut questions) = (usize::MAX, usize::MAX);
    let number = unsafe {
        station_report(
            template.as_ptr(),
            template.len(),
            section.as_ptr(),
            section.len(),
            buffer.as_ptr(),
            buffer.len(),
            length,
            text.as_mut_ptr(),
            text.len(),
            reads.as_mut_ptr(),
            reads.len(),
            &mut line,
            &mut pages,
            &mut text_bytes,
            &mut questions,
        )
    };
    Ending {
        number,
        line,
        pages,
        text_bytes,
        questions,
    }
}

/// A report without a name, store, text or read list: null pointers, as C may hand them in with length 0. An empty template is
/// null too.
pub fn report_of_nulls(template: &[u8]) -> Ending {
    let (null, mut end) = (
        std::ptr::null(),
        Ending {
            number: u32::MAX,
            line: u32::MAX,
            pages: u32::MAX,
            text_bytes: usize::MAX,
            questions: usize::MAX,
        },
    );
    let start = if template.is_empty() {
        null
    } else {
        template.as_ptr()
    };
    end.number = unsafe {
        station_report(
            start,
            template.len(),
            null,
            0,
            null,
            0,
            0,
            std::ptr::null_mut(),
            0,
            std::ptr::null_mut(),
            0,
            &mut end.line,
            &mut end.pages,
            &mut end.text_bytes,
            &mut end.questions,
        )
    };
    end
}
