//! Stores beside the second interpreter: answers, numbers, lengths and whole buffers.

use second::{Answer, Edited, Question, Value};
use station_tests::compared;
use station_tests::random::Random;
use station_tests::store::{
    ask, cell, decimals, index, index_in, key, looked_up, looked_up_near, put, remove, MOST_CELLS,
};
use std::collections::BTreeMap;

/// The longest store.
const LIMIT: usize = 65_536;
/// What the buffer holds past the store.
const PAST: u8 = 0xa5;

/// A key of few datasources, parameters, records and entries, the ends of each among them.
fn some_key(random: &mut Random) -> [u16; 4] {
    [
        random.pick(&[1, 2, 34, 35]),
        random.pick(&[1, 2, 255, 256, 65_535]),
        random.pick(&[0, 1, 2, 255, 256, 999]),
        random.pick(&[0, 1, 256, 999]),
    ]
}

fn some_value(random: &mut Random) -> Value {
    match random.below(3) {
        0 => Value::Integer(random.any_length(2_000_000_000)),
        1 => Value::Decimal(random.any_length(2_000_000_000_000_000)),
        _ => {
            let length = random.below(17);
            Value::String(
                (0..length)
                    .map(|_| 0x20 + random.below(0x5f) as u8)
                    .collect(),
            )
        }
    }
}

/// A store of some cells in a buffer with some bytes to spare.
fn some_store(random: &mut Random, cells: u64, spare: usize) -> (Vec<u8>, usize) {
    let cells: BTreeMap<_, _> = (0..cells)
        .map(|_| (some_key(random), some_value(random)))
        .collect();
    let mut buffer: Vec<u8> = cells.iter().flat_map(|(k, v)| cell(*k, v)).collect();
    let length = buffer.len();
    buffer.resize(length + spare, PAST);
    (buffer, length)
}

/// A question near the limits of each of its numbers, kinds 0 to 4.
fn some_question(random: &mut Random) -> Question {
    let [datasource, parameter, record, entry] = some_key(random).map(u32::from);
    let mut q = Question {
        kind: 1,
        datasource,
        parameter,
        record,
        entry,
    };
    match random.below(4) {
        0 => {
            q = Question {
                kind: 2,
                record: 0,
                entry: 0,
                ..q
            }
        }
        1 => {
            q = Question {
                kind: 3,
                entry: 0,
                ..q
            }
        }
        _ => {}
    }
    if random.below(8) == 0 {
        let wild = random.pick(&[0, 1, 2, 3, 4, 36, 999, 1_000, 65_535, 65_536, u32::MAX]);
        match random.below(5) {
            0 => q.kind = wild,
            1 => q.datasource = wild,
            2 => q.parameter = wild,
            3 => q.record = wild,
            _ => q.entry = wild,
        }
    }
    q
}

/// Changes a byte, drops or doubles a stretch, or hands in another length.
fn damage(random: &mut Random, buffer: &mut Vec<u8>, length: &mut usize) {
    match random.below(4) {
        0 if !buffer.is_empty() => {
            let at = random.below(buffer.len() as u64) as usize;
            buffer[at] = random.word() as u8;
        }
        1 if !buffer.is_empty() => {
            let at = random.below(buffer.len() as u64) as usize;
            let end = (at + random.below(30) as usize).min(buffer.len());
            buffer.drain(at..end);
        }
        2 => {
            let first: Vec<u8> = buffer
                .iter()
                .copied()
                .take(random.below(40) as usize)
                .collect();
            buffer.splice(0..0, first);
        }
        _ => {
            *length = random.pick(&[
                0,
                length.saturating_sub(1),
                *length + 1,
                buffer.len(),
                buffer.len() + 1,
                usize::MAX,
            ])
        }
    }
}

fn same_answer(buffer: &[u8], length: usize, q: Question) {
    assert_eq!(
        ask(buffer, length, q),
        second::ask(buffer, length, q),
        "{q:?}"
    );
}

/// "Kind 1 asks for the cell of a key", "Kind 2 asks for a parameter's highest record number", kind 3, 1 and 15.
#[test]
fn questions_on_random_and_damaged_stores() {
    let mut random = Random::new(0xa5c);
    for round in 0..20_000 {
        let (cells, spare) = (random.below(40), random.below(3) as usize);
        let (mut buffer, mut length) = some_store(&mut random, cells, spare);
        if round % 2 == 1 {
            damage(&mut random, &mut buffer, &mut length);
        }
        for _ in 0..20 {
            same_answer(&buffer, length, some_question(&mut random));
        }
    }
}

/// Every byte of a cell of each kind with every value.
#[test]
fn every_byte_of_a_cell() {
    let values = [
        Value::Integer(-2_000_000_000),
        Value::Decimal(2_000_000_000_000_000),
        Value::String(b"Cs-137".to_vec()),
    ];
    for value in values {
        let good = cell([7, 300, 12, 5], &value);
        for at in 0..good.len() {
            for byte in 0..=255 {
                let mut bytes = good.clone();
                bytes[at] = byte;
                let q = Question {
                    kind: 1,
                    datasource: 7,
                    parameter: 300,
                    record: 12,
                    entry: 5,
                };
                same_answer(&bytes, bytes.len(), q);
                let mut buffers = [vec![PAST; 30], vec![PAST; 30]];
                let ours = put(&mut buffers[0], 0, &bytes);
                assert_eq!(ours, second::put(&mut buffers[1], 0, &bytes));
                assert_eq!(buffers[0], buffers[1]);
            }
        }
    }
}

/// One edit on two copies of a buffer; the numbers, lengths and whole buffers agree. The length handed back.
fn same_edit(buffers: &mut [Vec<u8>; 2], length: usize, bytes: &[u8], putting: bool) -> usize {
    let [ours, theirs] = buffers;
    let (a, b) = if putting {
        (put(ours, length, bytes), second::put(theirs, length, bytes))
    } else {
        (
            remove(ours, length, bytes),
            second::remove(theirs, length, bytes),
        )
    };
    assert_eq!(a, b);
    assert!(ours == theirs, "the buffers differ");
    a.length
}

fn some_edit(random: &mut Random) -> (Vec<u8>, bool) {
    let putting = random.below(3) != 0;
    let k = some_key(random);
    let mut bytes = if putting {
        cell(k, &some_value(random))
    } else {
        key(k)
    };
    if random.below(16) == 0 {
        damage(random, &mut bytes, &mut 0);
    }
    (bytes, putting)
}

/// Lists of edits in one buffer, each at the length last handed back: 100,000 in all, in buffers of many lengths.
#[test]
fn long_lists_of_edits() {
    let mut random = Random::new(0xed17);
    for _ in 0..200 {
        let (cells, spare) = (random.below(12), random.below(600) as usize);
        let (mut buffer, mut length) = some_store(&mut random, cells, spare);
        if random.below(10) == 0 {
            damage(&mut random, &mut buffer, &mut length);
        }
        let mut buffers = [buffer.clone(), buffer];
        for _ in 0..500 {
            let (bytes, putting) = some_edit(&mut random);
            length = same_edit(&mut buffers, length, &bytes, putting);
        }
        for _ in 0..50 {
            same_answer(&buffers[0], length, some_question(&mut random));
        }
    }
}

/// 16 exactly where the new length would pass the buffer: growing, replacing by each kind, with each number of bytes to spare.
#[test]
fn puts_that_just_fit_and_just_dont() {
    let mut random = Random::new(0xf175);
    let values = [
        Value::Integer(1),
        Value::Decimal(1),
        Value::String(b"".to_vec()),
    ];
    for old in &values {
        for new in &values {
            for spare in 0..=26 {
                let (mut buffer, _) = some_store(&mut random, 5, 0);
                let length = same_edit(
                    &mut [buffer.clone(), buffer.clone()],
                    buffer.len(),
                    &[],
                    true,
                );
                buffer.resize(length + 26, PAST);
                let mut buffers = [buffer.clone(), buffer];
                let length = same_edit(&mut buffers, length, &cell([2, 2, 2, 0], old), true);
                buffers.iter_mut().for_each(|b| b.truncate(length + spare));
                for k in [[2, 2, 2, 0], [2, 3, 0, 0]] {
                    same_edit(&mut buffers.clone(), length, &cell(k, new), true);
                }
            }
        }
    }
}

/// A store of `cells` integers in datasources 1 to 35, in order.
fn full_store(cells: u16, buffer: usize) -> (Vec<u8>, usize) {
    let mut bytes: Vec<u8> = (0..cells)
        .flat_map(|n| {
            cell(
                [1 + n / 160, 1 + n % 160, n % 7, n % 3],
                &Value::Integer(n.into()),
            )
        })
        .collect();
    let length = bytes.len();
    bytes.resize(buffer, PAST);
    (bytes, length)
}

/// The index of a store, whole: 1 out of form and 16 with too few places write nothing; else the places and their count, and no more.
#[test]
fn the_index_with_every_number_of_places() {
    for cells in [0, 1, 2, 40, MOST_CELLS as u16] {
        let (mut buffer, length) = full_store(cells, LIMIT + 10);
        let all = usize::from(cells);
        let starts: Vec<u16> = (0..cells).map(|n| n * 12).collect();
        for room in [0, 1, all.saturating_sub(1), all, all + 1, MOST_CELLS + 1] {
            let (mut places, mut count) = (vec![9; room], 7);
            let number = index_in(&buffer, length, &mut places, &mut count);
            if room < all {
                assert_eq!((number, count), (16, 7));
                assert_eq!(places, vec![9; room]);
            } else {
                assert_eq!((number, count), (0, all));
                assert_eq!(places[..all], starts);
                assert_eq!(places[all..], vec![9; room - all]);
            }
        }
        let (mut places, mut count) = (vec![9; MOST_CELLS], 7);
        if 0 < length {
            buffer[length - 12] = 0;
        }
        let broken = if 0 < length { length } else { 1 };
        assert_eq!(index_in(&buffer, broken, &mut places, &mut count), 1);
        assert_eq!((places, count), (vec![9; MOST_CELLS], 7));
    }
}

/// A question near any hint has the answer that it has without one, and so has one near where the last ended.
#[test]
fn any_hint_gives_the_same_answer() {
    let mut random = Random::new(0x41);
    for _ in 0..2_000 {
        let cells = random.below(40);
        let (buffer, length) = some_store(&mut random, cells, 0);
        let mut places = vec![0; MOST_CELLS];
        let known = index(&buffer, length, &mut places).expect("a store in form");
        let mut last = 0;
        for _ in 0..40 {
            let q = some_question(&mut random);
            let answer = looked_up(&buffer, &places, known, q);
            let any = random.below(known as u64 + 2) as usize;
            for hint in [any, random.word() as usize, usize::MAX] {
                let (near, _) = looked_up_near(&buffer, &places, known, q, hint);
                assert_eq!(near, answer, "{q:?} near {hint}");
            }
            let (near, ended) = looked_up_near(&buffer, &places, known, q, last);
            assert_eq!(near, answer, "{q:?} near {last}");
            last = ended;
        }
    }
}

/// In sequence each cell is found right behind the one before it.
#[test]
fn hints_in_sequence() {
    let (buffer, length) = full_store(MOST_CELLS as u16, LIMIT);
    let mut places = vec![0; MOST_CELLS];
    let known = index(&buffer, length, &mut places).expect("a store in form");
    let mut last = 0;
    for n in 0..known {
        let [datasource, parameter, record, entry] =
            [1 + n / 160, 1 + n % 160, n % 7, n % 3].map(|x| x as u32);
        let q = Question {
            kind: 1,
            datasource,
            parameter,
            record,
            entry,
        };
        let (near, ended) = looked_up_near(&buffer, &places, known, q, last);
        assert_eq!((near, ended), (looked_up(&buffer, &places, known, q), n));
        last = ended;
    }
}

/// Stores of 0, 1 and 5,461 cells: every cell is found, and edits at the start, the middle and the end.
#[test]
fn empty_and_full_stores() {
    for cells in [0, 1, MOST_CELLS as u16] {
        let (buffer, length) = full_store(cells, LIMIT + 10);
        let mut places = vec![0; MOST_CELLS];
        assert_eq!(index(&buffer, length, &mut places), Some(cells.into()));
        for n in 0..cells {
            let [datasource, parameter, record, entry] =
                [1 + n / 160, 1 + n % 160, n % 7, n % 3].map(u32::from);
            let q = Question {
                kind: 1,
                datasource,
                parameter,
                record,
                entry,
            };
            same_answer(&buffer, length, q);
            assert_eq!(
                looked_up(&buffer, &places, cells.into(), q),
                second::ask(&buffer, length, q).answer
            );
            same_answer(
                &buffer,
                length,
                Question {
                    kind: 2,
                    datasource,
                    parameter,
                    record: 0,
                    entry: 0,
                },
            );
            same_answer(
                &buffer,
                length,
                Question {
                    kind: 3,
                    datasource,
                    parameter,
                    record,
                    entry: 0,
                },
            );
        }
        for k in [
            [1, 1, 0, 0],
            [1, 1, 0, 1],
            [17, 80, 3, 1],
            [35, 21, 999, 999],
        ] {
            for bytes in [
                cell(k, &Value::Integer(-5)),
                cell(k, &Value::Decimal(7)),
                cell(k, &Value::String(vec![b'x'; 16])),
            ] {
                same_edit(&mut [buffer.clone(), buffer.clone()], length, &bytes, true);
            }
            same_edit(
                &mut [buffer.clone(), buffer.clone()],
                length,
                &key(k),
                false,
            );
        }
    }
}

/// "A run of cells, 0 to 65,536 bytes": one byte more is 1, in a buffer that has it.
#[test]
fn lengths_at_the_limit() {
    let (buffer, length) = full_store(MOST_CELLS as u16, LIMIT + 100);
    for n in [
        length - 1,
        length,
        length + 1,
        LIMIT - 1,
        LIMIT,
        LIMIT + 1,
        buffer.len(),
        buffer.len() + 1,
        usize::MAX,
    ] {
        same_answer(
            &buffer,
            n,
            Question {
                kind: 1,
                datasource: 1,
                parameter: 1,
                record: 0,
                entry: 0,
            },
        );
        same_edit(
            &mut [buffer.clone(), buffer.clone()],
            n,
            &cell([1, 1, 0, 0], &Value::Integer(3)),
            true,
        );
    }
}

/// "A run of cells, 0 to 65,536 bytes", just so many: every cell is found, and a put that makes it longer is 16, in a buffer that has
/// the bytes too. One cell more is 1.
#[test]
fn exactly_65_536_bytes_and_a_cell_more() {
    for spare in [0, 16, 100] {
        let mut full = decimals(4_097);
        assert_eq!(full.len(), LIMIT + 16);
        full.resize(LIMIT + spare, PAST);
        let mut places = vec![0; MOST_CELLS];
        assert_eq!(index(&full, LIMIT, &mut places), Some(4_096));
        for n in (0..4_097).step_by(if spare == 0 { 1 } else { 512 }) {
            let q = Question {
                kind: 1,
                datasource: 1 + n / 160,
                parameter: 1 + n % 160,
                record: n % 7,
                entry: n % 3,
            };
            let asked = compared::ask(&full, LIMIT, q);
            let decimal = Value::Decimal(i64::from(n) * 1_000_001);
            let there = if n < 4_096 { decimal } else { Value::Missing };
            assert_eq!((asked.number, asked.answer), (0, Answer::Cell(there)));
            assert_eq!(compared::ask(&full, LIMIT + 16, q).number, 1);
        }
        let values = [
            (Value::Integer(7), LIMIT - 4),
            (Value::Decimal(7), LIMIT),
            (Value::String(b"Cs-137".to_vec()), LIMIT + 9),
        ];
        for k in [[1, 1, 0, 0], [13, 129, 4, 2], [26, 96, 0, 0]] {
            for (value, length) in &values {
                let put = |length| compared::put(&mut full.clone(), length, &cell(k, value));
                let fits = *length <= LIMIT;
                let number = if fits { 0 } else { 16 };
                let length = if fits { *length } else { LIMIT };
                assert_eq!(put(LIMIT), Edited { number, length }, "{k:?}");
                assert_eq!(put(LIMIT + 16).number, 1);
            }
            let mut shorter = full.clone();
            let removed = compared::remove(&mut shorter, LIMIT, &key(k));
            assert_eq!((removed.number, removed.length), (0, LIMIT - 16));
            let put = compared::put(&mut shorter, removed.length, &cell(k, &values[1].0));
            assert_eq!((put.number, put.length), (0, LIMIT));
            assert_eq!(
                compared::remove(&mut full.clone(), LIMIT + 16, &key(k)).number,
                1
            );
        }
        for k in [[1, 1, 0, 1], [26, 97, 1, 1], [35, 65_535, 999, 999]] {
            for (value, _) in &values {
                let put = compared::put(&mut full.clone(), LIMIT, &cell(k, value));
                assert_eq!((put.number, put.length), (16, LIMIT));
            }
            let removed = compared::remove(&mut full.clone(), LIMIT, &key(k));
            assert_eq!((removed.number, removed.length), (17, LIMIT));
        }
    }
}
