//! `ask` on full stores: the form check, the lookup over a ready index, and both, beside other ways to find a cell.

use crate::{stack, time};
use second::{Question, Value};
use station_tests::random::Random;
use station_tests::store::{
    ask, cell, index, key, look_up, look_up_near, put, remove, Handed, MOST_CELLS,
};
use std::hint::black_box;

const QUESTIONS: usize = 2_000;

/// A store of integers in datasources 1 to 35, and the questions for its cells in the order of their keys.
fn full_store(cells: u16) -> (Vec<u8>, Vec<Question>) {
    let keys: Vec<[u16; 4]> = (0..cells)
        .map(|n| [1 + n / 160, 1 + n % 160, n % 7, n % 3])
        .collect();
    let store = keys
        .iter()
        .flat_map(|k| cell(*k, &Value::Integer(7)))
        .collect();
    let questions = keys.iter().map(|k| {
        let [datasource, parameter, record, entry] = k.map(u32::from);
        Question {
            kind: 1,
            datasource,
            parameter,
            record,
            entry,
        }
    });
    (store, questions.collect())
}

/// Random ones of some questions.
fn picked(sequence: &[Question]) -> Vec<Question> {
    let mut random = Random::new(0xbe);
    (0..QUESTIONS).map(|_| random.pick(sequence)).collect()
}

fn key_at(store: &[u8], at: usize) -> u64 {
    u64::from_be_bytes(store[at..at + 8].try_into().expect("eight bytes")) & 0x00ff_ffff_ffff_ffff
}

fn number(q: Question) -> u64 {
    (u64::from(q.datasource) << 48)
        | (u64::from(q.parameter) << 32)
        | (u64::from(q.record) << 16)
        | u64::from(q.entry)
}

/// The value of the cell at a place.
fn value_at(store: &[u8], at: usize) -> Found {
    let cell = &store[at..];
    match cell[0] {
        0x49 => {
            Found::Integer(i32::from_be_bytes(cell[8..12].try_into().expect("four bytes")).into())
        }
        0x46 => Found::Decimal(i64::from_be_bytes(
            cell[8..16].try_into().expect("eight bytes"),
        )),
        _ => Found::Text(at + 9, cell[8].into()),
    }
}

/// What a lookup hands back, here as there.
enum Found {
    Missing,
    Integer(i64),
    Decimal(i64),
    Text(usize, usize),
}

/// Plain Rust over the same index, without the limits of a question.
fn binary_search(store: &[u8], places: &[u16], q: Question) -> Found {
    match places.binary_search_by_key(&number(q), |&at| key_at(store, at.into())) {
        Ok(i) => value_at(store, places[i].into()),
        Err(_) => Found::Missing,
    }
}

/// The plain search behind the same call as the lookup: the same parameters, the answer handed back in the same way.
#[inline(never)]
extern "C" fn binary_search_call(
    buffer: *const u8,
    buffer_length: usize,
    places: *const u16,
    places_length: usize,
    known: usize,
    kind: u32,
    datasource: u32,
    parameter: u32,
    record: u32,
    entry: u32,
    answered: &mut u8,
    value: &mut i64,
    place: &mut usize,
    count: &mut usize,
) {
    let store = unsafe { std::slice::from_raw_parts(buffer, buffer_length) };
    let places = unsafe { std::slice::from_raw_parts(places, places_length) };
    let question = Question {
        kind,
        datasource,
        parameter,
        record,
        entry,
    };
    match binary_search(store, &places[..known], question) {
        Found::Missing => *answered = 0,
        Found::Integer(n) => (*answered, *value) = (0x49, n),
        Found::Decimal(n) => (*answered, *value) = (0x46, n),
        Found::Text(at, n) => (*answered, *place, *count) = (0x53, at, n),
    }
}

/// Plain Rust from the store's start.
fn walk(store: &[u8], q: Question) -> Found {
    let mut at = 0;
    while at < store.len() {
        if key_at(store, at) == number(q) {
            return value_at(store, at);
        }
        at += match store[at] {
            0x49 => 12,
            0x46 => 16,
            _ => 25,
        };
    }
    Found::Missing
}

fn times(cells: u16) {
    let (store, sequence) = full_store(cells);
    let questions = picked(&sequence);
    let mut places = vec![0; MOST_CELLS];
    let count = index(&store, store.len(), &mut places).expect("a store in form");
    let mut spare = places.clone();
    let q = |i: usize| questions[i % QUESTIONS];
    let [lookup, called, plain, walked, checked, whole, theirs] = time::nanoseconds(
        21,
        [
            (20_000, &mut |i| {
                let mut handed = Handed::default();
                look_up(&store, &places, count, q(i), &mut handed);
                black_box(&handed);
            }),
            (20_000, &mut |i| {
                let (mut kind, mut value, mut place, mut length) = (0, 0, 0, 0);
                let q = q(i);
                binary_search_call(
                    store.as_ptr(),
                    store.len(),
                    places.as_ptr(),
                    places.len(),
                    count,
                    q.kind,
                    q.datasource,
                    q.parameter,
                    q.record,
                    q.entry,
                    &mut kind,
                    &mut value,
                    &mut place,
                    &mut length,
                );
                black_box((&kind, &value, &place, &length));
            }),
            (20_000, &mut |i| {
                black_box(&binary_search(&store, &places[..count], q(i)));
            }),
            (1_000, &mut |i| {
                black_box(walk(&store, q(i)));
            }),
            (100, &mut |_| {
                black_box(index(&store, store.len(), &mut spare));
            }),
            (100, &mut |i| {
                black_box(ask(&store, store.len(), q(i)));
            }),
            (100, &mut |i| {
                black_box(second::ask(&store, store.len(), q(i)));
            }),
        ],
    );
    println!(
        "| {cells} | {:.2} | {:.2} | {:.3} | {:.2} | {:.2} | {:.2} |",
        lookup / called,
        lookup / plain,
        lookup / walked,
        checked / whole,
        whole / theirs,
        whole / walked
    );
}

/// 2,000 lookups over so many cells, whose instructions callgrind counts: `look` and `near` of random ones, `untried` of these with a hint
/// past the cells, `sequence` near the last one.
pub fn once(kind: &str, cells: usize) {
    let (store, sequence) = full_store(cells as u16);
    let questions = match kind {
        "sequence" => sequence.into_iter().cycle().take(QUESTIONS).collect(),
        _ => picked(&sequence),
    };
    let mut places = vec![0; MOST_CELLS];
    let count = index(&store, store.len(), &mut places).expect("a store in form");
    let (mut handed, mut hint) = (Handed::default(), 0);
    for q in questions {
        match kind {
            "look" => look_up(&store, &places, count, q, &mut handed),
            "untried" => hint = look_up_near(&store, &places, count, q, count, &mut handed),
            _ => hint = look_up_near(&store, &places, count, q, hint, &mut handed),
        }
    }
    black_box((&handed, hint));
}

/// Of questions that take turns, the time near where the last one ended, by that of the same call with a hint past the cells, which
/// isn't tried, and by that of the call without a hint, which hands over and back one number less.
fn near(store: &[u8], questions: &[Question]) -> [f64; 2] {
    let mut places = vec![0; MOST_CELLS];
    let count = index(store, store.len(), &mut places).expect("a store in form");
    let q = |i: usize| questions[i % questions.len()];
    let (mut last, mut ended) = (0, 0);
    let untried = black_box(count);
    let [near, same, lookup] = time::nanoseconds(
        21,
        [
            (20_000, &mut |i| {
                let mut handed = Handed::default();
                last = look_up_near(store, &places, count, q(i), last, &mut handed);
                black_box(&handed);
            }),
            (20_000, &mut |i| {
                let mut handed = Handed::default();
                ended = look_up_near(store, &places, count, q(i), untried, &mut handed);
                black_box(&handed);
            }),
            (20_000, &mut |i| {
                let mut handed = Handed::default();
                look_up(store, &places, count, q(i), &mut handed);
                black_box(&handed);
            }),
        ],
    );
    black_box(ended);
    [near / same, near / lookup]
}

fn near_times(cells: u16) {
    let (store, sequence) = full_store(cells);
    let [random, random_longer] = near(&store, &picked(&sequence));
    let [in_order, in_order_longer] = near(&store, &sequence);
    println!(
        "| {cells} | {random:.2} | {in_order:.2} | {random_longer:.2} | {in_order_longer:.2} |"
    );
}

fn stacks() {
    let (store, questions) = full_store(MOST_CELLS as u16 - 3);
    let (length, q) = (store.len(), questions[0]);
    let mut buffer = store.clone();
    buffer.resize(length + 100, 0);
    let (mut a, mut b) = (buffer.clone(), buffer);
    let asked = stack::used(move || {
        black_box(ask(&store, length, q));
    });
    let put = stack::used(move || {
        black_box(put(&mut a, length, &cell([1, 1, 9, 9], &Value::Integer(1))));
    });
    let removed = stack::used(move || {
        black_box(remove(&mut b, length, &key([1, 1, 0, 0])));
    });
    println!("\nstack in bytes, of 65,536: ask {asked}, put {put}, remove {removed}");
    assert!(
        [asked, put, removed].iter().all(|&n| n < 65_536),
        "a call uses more than 64 KB of stack"
    );
}

pub fn run() {
    println!("Ratios of times, kind 1, random cells of a full store:");
    println!("| cells | lookup / binary search | lookup / search inlined | lookup / walk | form check / ask | ask / second's ask | ask / walk |");
    println!("| --- | --- | --- | --- | --- | --- | --- |");
    let sizes = [100, 1_000, MOST_CELLS as u16];
    sizes.into_iter().for_each(times);
    println!("\nA lookup near where the last one ended, by the same call with a hint past the cells and by the call without a hint:");
    println!(
        "| cells | random | in sequence | random / call without | in sequence / call without |"
    );
    println!("| --- | --- | --- | --- | --- |");
    sizes.into_iter().for_each(near_times);
    stacks();
}
