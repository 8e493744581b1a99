//! Reports beside the second interpreter and beside plain Rust that draws one fixed sheet without an interpreter.

use crate::lent::Lent;
use crate::sheets::{load, twelve};
use crate::time;
use second::{Question, Value};
use station_tests::report::Asked;
use station_tests::store::{cell, index, look_up_near, Handed, MOST_CELLS};
use station_tests::template::check;
use std::hint::black_box;

/// Nanoseconds of a report by ours and by the second interpreter, buffers cleared before each; both must end alike.
fn both(rounds: usize, template: &[u8], store: &[u8]) -> (f64, f64, second::Report) {
    let (mut a, mut b) = (Lent::new(), Lent::new());
    let end = a.ours(template, store);
    assert_eq!(end, b.theirs(template, store));
    assert_eq!(a.text, b.text);
    let cleared = time::nanoseconds(
        rounds,
        [(1, &mut |_| {
            a.clear();
            black_box(&a.text);
        })],
    )[0];
    let [ours, theirs] = time::nanoseconds(
        rounds,
        [
            (1, &mut |_| {
                a.clear();
                black_box(a.ours(template, store));
            }),
            (1, &mut |_| {
                b.clear();
                black_box(b.theirs(template, store));
            }),
        ],
    );
    (ours - cleared, theirs - cleared, end)
}

// ---- document 02, Twelve

fn key_at(store: &[u8], at: usize) -> u64 {
    u64::from_be_bytes(store[at..at + 8].try_into().expect("eight bytes")) & 0x00ff_ffff_ffff_ffff
}

fn cell_length(kind: u8) -> usize {
    match kind {
        0x49 => 12,
        0x46 => 16,
        _ => 25,
    }
}

/// The form of a store of integers, and the places of its cells.
fn plain_index(store: &[u8], places: &mut [u16]) -> usize {
    let (mut at, mut count, mut last) = (0, 0, 0);
    while at < store.len() {
        let key = key_at(store, at);
        let value = i32::from_be_bytes(store[at + 8..at + 12].try_into().expect("four bytes"));
        assert!(store[at] == 0x49 && key > last && value.abs() <= 2_000_000_000);
        places[count] = at as u16;
        count += 1;
        last = key;
        at += 12;
    }
    count
}

/// Twelve's sheet by plain Rust: `find` gives the place of a key's cell.
fn drawn(
    store: &[u8],
    text: &mut [u8],
    reads: &mut [Asked],
    find: impl Fn(u64) -> Option<usize>,
) -> (usize, usize) {
    let (mut printed, mut asked, mut line) = (0, 0, 1);
    for record in 1..=20_u32 {
        for parameter in 1..=100_u32 {
            reads[asked] = Asked {
                kind: 1,
                datasource: 35,
                parameter,
                record,
                entry: 0,
            };
            asked += 1;
            if line == 61 {
                text[printed] = 0x0c;
                printed += 1;
                line = 1;
            }
            let wanted = 35 << 48 | u64::from(parameter) << 32 | u64::from(record) << 16;
            let field = &mut text[printed..printed + 11];
            field.fill(b' ');
            match find(wanted) {
                None => field[..3].copy_from_slice(b"???"),
                Some(at) => {
                    let value = &store[at + 8..at + 12];
                    let mut n = u32::from_be_bytes(value.try_into().expect("four bytes"));
                    let mut place = 11;
                    loop {
                        place -= 1;
                        field[place] = b'0' + (n % 10) as u8;
                        n /= 10;
                        if n == 0 {
                            break;
                        }
                    }
                }
            }
            text[printed + 11] = b'\n';
            printed += 12;
            line += 1;
        }
    }
    (printed, asked)
}

fn by_index(store: &[u8], l: &mut Lent) -> (usize, usize) {
    let mut places = [0; MOST_CELLS];
    let count = plain_index(store, &mut places);
    let found = |wanted| {
        let at = places[..count].binary_search_by_key(&wanted, |&at| key_at(store, at.into()));
        at.ok().map(|i| places[i].into())
    };
    drawn(store, &mut l.text, &mut l.reads, found)
}

fn by_walk(store: &[u8], l: &mut Lent) -> (usize, usize) {
    let found = |wanted| {
        let mut at = 0;
        while at < store.len() {
            if key_at(store, at) == wanted {
                return Some(at);
            }
            at += cell_length(store[at]);
        }
        None
    };
    drawn(store, &mut l.text, &mut l.reads, found)
}

fn sheet_of_twelve() {
    let (store, template) = (load(), twelve());
    let (mut a, mut b, mut c, mut d) = (Lent::new(), Lent::new(), Lent::new(), Lent::new());
    let end = a.ours(&template, &store);
    assert_eq!((end.number, end.questions), (0, 2_000));
    let lines = a.text[..end.text_bytes].split_inclusive(|&b| b == b'\n');
    let found = |line: &&[u8]| !line.contains(&b'?');
    assert_eq!(
        (lines.clone().count(), lines.filter(found).count()),
        (2_000, 8)
    );
    assert_eq!(end, b.theirs(&template, &store));
    for (l, draw) in [
        (&mut c, by_index as fn(&[u8], &mut Lent) -> (usize, usize)),
        (&mut d, by_walk),
    ] {
        assert_eq!(draw(&store, l), (end.text_bytes, end.questions));
        assert!(l.text == a.text && l.reads == a.reads && b.text == a.text);
    }
    let mut places = vec![0; MOST_CELLS];
    let count = index(&store, store.len(), &mut places).expect("a store in form");
    let mut spare = places.clone();
    let questions = questions();
    let mut handed = Handed::default();
    let mut empty = Lent::new();
    let [cleared, ours, theirs, plain, walked, form, checked, lookups] = time::nanoseconds(
        101,
        [
            (1, &mut |_| {
                empty.clear();
                black_box(&empty.text);
            }),
            (1, &mut |_| {
                a.clear();
                black_box(a.ours(&template, &store));
            }),
            (1, &mut |_| {
                b.clear();
                black_box(b.theirs(&template, &store));
            }),
            (1, &mut |_| {
                c.clear();
                black_box(by_index(&store, &mut c));
            }),
            (1, &mut |_| {
                d.clear();
                black_box(by_walk(&store, &mut d));
            }),
            (1, &mut |_| {
                black_box(index(&store, store.len(), &mut spare));
            }),
            (1, &mut |_| {
                black_box(check(&template, b""));
            }),
            (1, &mut |_| {
                let mut last = 0;
                for q in &questions {
                    last = look_up_near(&store, &places, count, *q, last, &mut handed);
                }
                black_box(&handed);
            }),
        ],
    );
    let [ours, theirs, plain, walked] = [ours, theirs, plain, walked].map(|t| t - cleared);
    println!("The sheet of 2,000 questions on {count} cells, buffers cleared before each run:");
    println!("| ours / plain Rust over an index | ours / second | ours / walk |");
    println!("| --- | --- | --- |");
    println!(
        "| {:.2} | {:.2} | {:.3} |",
        ours / plain,
        ours / theirs,
        ours / walked
    );
    println!(
        "\nof ours: form check {:.0}%, checks of the template {:.0}%, lookups {:.0}%, the rest {:.0}%; {:.0} ns a line\n",
        100.0 * form / ours,
        100.0 * checked / ours,
        100.0 * lookups / ours,
        100.0 * (ours - form - checked - lookups) / ours,
        (ours - form - checked) / 2_000.0
    );
}

/// The questions of Twelve's sheet.
fn questions() -> Vec<Question> {
    let numbers = (1..=20).flat_map(|record| (1..=100).map(move |parameter| (record, parameter)));
    numbers
        .map(|(record, parameter)| Question {
            kind: 1,
            datasource: 35,
            parameter,
            record,
            entry: 0,
        })
        .collect()
}

// ---- other reports

/// A few cells that the templates below ask for, and so many others.
fn with_others(others: u16) -> Vec<u8> {
    let mut store = Vec::new();
    for record in 0..4 {
        store.extend(cell([1, 1, record, 0], &Value::Integer(record.into())));
    }
    store.extend(cell([1, 2, 0, 0], &Value::Decimal(1_250_000)));
    for n in 0..others {
        store.extend(cell([2 + n / 200, 1 + n % 200, 0, 0], &Value::Integer(7)));
    }
    store
}

fn thirty_pages() -> &'static str {
    "$SEC A\n$SETE SV1 \"Cs-137\"\n$BT 1800\n$SETA FV1 0.7\n{LOOP,4}{PAGENUM,3}{LINENUM,3}{FV1,6.1}{SV1,4}{P1.1,3}{IV1,3}{P2,5.2}\n$ET\n"
}

fn lines_of_seta() -> &'static str {
    "$SEC A\n$BT 24999\n$SETA IV1 1\n$ET"
}

/// A failing test a pass, over nearly the whole template.
fn jumps() -> Vec<u8> {
    let mut template = b"$SEC A\n$BT 24999\n$IF 0\n".to_vec();
    let line = [b"x".repeat(99).as_slice(), b"\n"].concat();
    while template.len() < 32_000 {
        template.extend(&line);
    }
    template.extend(b"$ENDIF\n$ET");
    template
}

/// The line ends of some bytes, counted one by one.
fn scan(bytes: &[u8]) -> usize {
    let mut ends = 0;
    for &b in bytes {
        ends += usize::from(black_box(b) == 0x0a);
    }
    ends
}

fn other_reports() {
    println!("Other reports:");
    println!("| report | ours / second | a line (ns) |");
    println!("| --- | --- | --- |");
    let store = with_others(0);
    let (ours, theirs, end) = both(31, thirty_pages().as_bytes(), &store);
    assert_eq!((end.number, end.pages), (0, 30));
    println!(
        "| 30 pages of lines with 8 fields | {:.2} | {:.0} |",
        ours / theirs,
        ours / 1_800.0
    );
    let (ours, theirs, end) = both(31, lines_of_seta().as_bytes(), &store);
    assert_eq!(end.number, 0);
    println!(
        "| 50,000 lines, half of them $SETA | {:.2} | {:.0} |",
        ours / theirs,
        ours / 50_000.0
    );
    let template = jumps();
    let (ours, theirs, end) = both(3, &template, &store);
    assert_eq!(end.number, 0);
    let [scanned] = time::nanoseconds(
        31,
        [(1, &mut |_| {
            black_box(scan(black_box(&template)));
        })],
    );
    println!(
        "| 25,000 failing tests over 32,000 bytes | {:.2} | {:.0} |",
        ours / theirs,
        ours / 50_000.0
    );
    println!(
        "\na jump is {:.2} plain scans of the bytes that it passes\n",
        ours / 24_999.0 / scanned
    );
}

fn other_cells() {
    println!("30 pages beside other cells in the store, less the form check:");
    println!("| other cells | as to none | with the form check |");
    println!("| --- | --- | --- |");
    let mut places = vec![0; MOST_CELLS];
    let mut first = None;
    for others in [0, 500, MOST_CELLS as u16 - 6] {
        let store = with_others(others);
        let (ours, _, _) = both(31, thirty_pages().as_bytes(), &store);
        let [form] = time::nanoseconds(
            31,
            [(1, &mut |_| {
                black_box(index(&store, store.len(), &mut places));
            })],
        );
        let base = *first.get_or_insert(ours - form);
        println!(
            "| {others} | {:.2} | {:.2} |",
            (ours - form) / base,
            ours / base
        );
    }
}

pub fn run() {
    sheet_of_twelve();
    other_reports();
    other_cells();
}
