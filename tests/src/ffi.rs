//! The declarations of libstation_testing.a, as station_testing.h has them, and every `unsafe` of this crate: any bytes, any lengths,
//! any codes.

use station::testing::{Asking, Handed};

extern "C" {
    fn station_integers(operation: u32, a: i64, b: i64, result: &mut i64) -> u32;
    fn station_decimals(operation: u32, a: i64, b: i64, result: &mut i64) -> u32;
    fn station_one(operation: u32, a: i64, result: &mut i64) -> u32;
    fn station_whole(kind: u8, n: i64) -> i64;
    fn station_compare(test: u32, kind: u8, a: i64, other: u8, b: i64) -> bool;
    fn station_rounded(kind: u8, n: i64, places: usize, units: &mut u64) -> bool;
    fn station_number_field(
        buffer: *mut u8,
        length: usize,
        at: usize,
        width: usize,
        said: bool,
        places: usize,
        kind: u8,
        n: i64,
    ) -> bool;
    fn station_string_field(
        buffer: *mut u8,
        length: usize,
        at: usize,
        width: usize,
        bytes: *const u8,
        bytes_length: usize,
    ) -> bool;
    fn station_missing_field(buffer: *mut u8, length: usize, at: usize, width: usize) -> bool;
    fn station_index(
        buffer: *const u8,
        buffer_length: usize,
        length: usize,
        places: *mut u16,
        places_length: usize,
        count: &mut usize,
    ) -> u32;
    fn station_look_up(
        buffer: *const u8,
        buffer_length: usize,
        places: *const u16,
        places_length: usize,
        known: usize,
        kind: u32,
        datasource: u32,
        parameter: u32,
        record: u32,
        entry: u32,
        answered: &mut u8,
        value: &mut i64,
        place: &mut usize,
        count: &mut usize,
    );
    fn station_look_up_near(
        buffer: *const u8,
        buffer_length: usize,
        places: *const u16,
        places_length: usize,
        known: usize,
        kind: u32,
        datasource: u32,
        parameter: u32,
        record: u32,
        entry: u32,
        hint: usize,
        answered: &mut u8,
        value: &mut i64,
        place: &mut usize,
        count: &mut usize,
        ended: &mut usize,
    );
    fn station_line(
        line: *const u8,
        line_length: usize,
        numbers: *mut u64,
        numbers_length: usize,
    ) -> bool;
    fn station_piece(
        line: *const u8,
        line_length: usize,
        at: usize,
        numbers: *mut u64,
        numbers_length: usize,
    ) -> bool;
    fn station_skip(
        rest: *const u8,
        rest_length: usize,
        code: u32,
        bytes: &mut usize,
        lines: &mut u32,
    );
}

#[inline]
pub fn integers(operation: u32, a: i64, b: i64, result: &mut i64) -> u32 {
    unsafe { station_integers(operation, a, b, result) }
}

#[inline]
pub fn decimals(operation: u32, a: i64, b: i64, result: &mut i64) -> u32 {
    unsafe { station_decimals(operation, a, b, result) }
}

#[inline]
pub fn one(operation: u32, a: i64, result: &mut i64) -> u32 {
    unsafe { station_one(operation, a, result) }
}

#[inline]
pub fn whole(kind: u8, n: i64) -> i64 {
    unsafe { station_whole(kind, n) }
}

#[inline]
pub fn compare(test: u32, a: (u8, i64), b: (u8, i64)) -> bool {
    unsafe { station_compare(test, a.0, a.1, b.0, b.1) }
}

#[inline]
pub fn rounded(kind: u8, n: i64, places: usize, units: &mut u64) -> bool {
    unsafe { station_rounded(kind, n, places, units) }
}

#[inline]
pub fn number_field(
    buffer: &mut [u8],
    at: usize,
    width: usize,
    places: Option<usize>,
    kind: u8,
    n: i64,
) -> bool {
    let (said, d) = (places.is_some(), places.unwrap_or(0));
    unsafe {
        station_number_field(
            buffer.as_mut_ptr(),
            buffer.len(),
            at,
            width,
            said,
            d,
            kind,
            n,
        )
    }
}

#[inline]
pub fn string_field(buffer: &mut [u8], at: usize, width: usize, bytes: &[u8]) -> bool {
    unsafe {
        station_string_field(
            buffer.as_mut_ptr(),
            buffer.len(),
            at,
            width,
            bytes.as_ptr(),
            bytes.len(),
        )
    }
}

#[inline]
pub fn missing_field(buffer: &mut [u8], at: usize, width: usize) -> bool {
    unsafe { station_missing_field(buffer.as_mut_ptr(), buffer.len(), at, width) }
}

/// The number; the places of the cells go to `places`, their count to `count`.
#[inline]
pub fn index(buffer: &[u8], length: usize, places: &mut [u16], count: &mut usize) -> u32 {
    unsafe {
        station_index(
            buffer.as_ptr(),
            buffer.len(),
            length,
            places.as_mut_ptr(),
            places.len(),
            count,
        )
    }
}

/// A question over the first `known` places of a store's cells.
#[inline]
pub fn look_up(buffer: &[u8], places: &[u16], known: usize, q: Asking, h: &mut Handed) {
    unsafe {
        station_look_up(
            buffer.as_ptr(),
            buffer.len(),
            places.as_ptr(),
            places.len(),
            known,
            q.kind,
            q.datasource,
            q.parameter,
            q.record,
            q.entry,
            &mut h.kind,
            &mut h.value,
            &mut h.place,
            &mut h.count,
        )
    };
}

/// The same, first sought near a hint; where the search ended is returned.
#[inline]
pub fn look_up_near(
    buffer: &[u8],
    places: &[u16],
    known: usize,
    q: Asking,
    hint: usize,
    h: &mut Handed,
) -> usize {
    let mut ended = 0;
    unsafe {
        station_look_up_near(
            buffer.as_ptr(),
            buffer.len(),
            places.as_ptr(),
            places.len(),
            known,
            q.kind,
            q.datasource,
            q.parameter,
            q.record,
            q.entry,
            hint,
            &mut h.kind,
            &mut h.value,
            &mut h.place,
            &mut h.count,
            &mut ended,
        )
    };
    ended
}

/// Whether there was room for the row of a line.
#[inline]
pub fn line(line: &[u8], numbers: &mut [u64]) -> bool {
    unsafe {
        station_line(
            line.as_ptr(),
            line.len(),
            numbers.as_mut_ptr(),
            numbers.len(),
        )
    }
}

/// Whether there was room for the row of a piece.
#[inline]
pub fn piece(line: &[u8], at: usize, numbers: &mut [u64]) -> bool {
    unsafe {
        station_piece(
            line.as_ptr(),
            line.len(),
            at,
            numbers.as_mut_ptr(),
            numbers.len(),
        )
    }
}

/// How many bytes and lines of the part of a template behind a line are passed over where it jumps.
#[inline]
pub fn skip(rest: &[u8], code: u32) -> (usize, u32) {
    let (mut bytes, mut lines) = (usize::MAX, u32::MAX);
    unsafe { station_skip(rest.as_ptr(), rest.len(), code, &mut bytes, &mut lines) };
    (bytes, lines)
}
