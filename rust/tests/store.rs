//! Stores beside the asking of each cell, and bytes that are no store.

use station::{
    Answer, Cell, Decimal, Key, Question, Refusal, Store, Value, STORE_BYTES, STORE_CELLS,
};

/// A store with cells of each kind at the limits of keys and values.
fn limits() -> Store {
    let values: [Value; 9] = [
        Value::Integer(-2_000_000_000),
        Value::Integer(0),
        Value::Integer(2_000_000_000),
        Value::Decimal(Decimal::from_millionths(-2_000_000_000_000_000)),
        Value::Decimal(Decimal::from_millionths(-1)),
        Value::Decimal(Decimal::from_millionths(2_000_000_000_000_000)),
        Value::from(""),
        Value::from(" ~ \"sixteen\" ~  "),
        Value::from("x"),
    ];
    let mut store = Store::new();
    for datasource in [1, 35] {
        for parameter in [1, 65_535] {
            for record in [0, 999] {
                for (entry, value) in [0, 1, 2, 3, 4, 5, 6, 998, 999].into_iter().zip(&values) {
                    let key = Key {
                        datasource,
                        parameter,
                        record,
                        entry,
                    };
                    store.put(key, value.clone()).unwrap();
                }
            }
        }
    }
    store
}

#[test]
fn cells_are_what_their_questions_answer() {
    let store = limits();
    let cells: Vec<Cell> = store.cells().collect();
    assert_eq!(cells.len(), 72);
    for Cell { key, value } in &cells {
        let answer = store.ask(Question::Cell(*key)).unwrap();
        assert_eq!(answer, Answer::Value(value.clone()));
    }
    assert!(cells.windows(2).all(|pair| pair[0].key < pair[1].key));
}

#[test]
fn a_store_put_together_from_its_cells_has_the_same_bytes() {
    let store = limits();
    let mut other = Store::new();
    let mut cells: Vec<Cell> = store.cells().collect();
    cells.reverse();
    for Cell { key, value } in cells {
        other.put(key, value).unwrap();
    }
    assert_eq!(other.as_bytes(), store.as_bytes());
    assert_eq!(Store::from_bytes(store.as_bytes()).unwrap(), store);
}

#[test]
fn bytes_out_of_form_are_refused_with_1() {
    let store = limits();
    let bytes = store.as_bytes();
    for length in 0..=bytes.len() {
        let read = Store::from_bytes(&bytes[..length]);
        assert_eq!(read.is_ok(), ends(bytes, length), "{length}");
    }
    let long = vec![0x49; STORE_BYTES + 1];
    assert_eq!(Store::from_bytes(&long).err(), Some(Refusal::StoreForm));
}

/// Whether a cell of a store ends at a place.
fn ends(bytes: &[u8], place: usize) -> bool {
    let mut at = 0;
    while at < place {
        at += match bytes[at] {
            0x49 => 12,
            0x46 => 16,
            _ => 25,
        };
    }
    at == place
}

#[test]
fn a_store_holds_5461_integers_and_no_more() {
    let mut store = Store::new();
    let key = |n: usize| Key {
        datasource: 1 + (n / 1_000) as u8,
        parameter: 1,
        record: (n % 1_000) as u16,
        entry: 0,
    };
    for n in 0..STORE_CELLS {
        store.put(key(n), n as i32).unwrap();
    }
    assert_eq!(store.put(key(STORE_CELLS), 1), Err(Refusal::StoreFull));
    assert_eq!(store.cells().count(), STORE_CELLS);
}

#[test]
fn texts_that_are_no_string_of_a_store_are_refused_with_15() {
    let mut store = Store::new();
    for text in ["seventeen bytes a", "µ", "a\n", "\u{7f}", &"x".repeat(300)] {
        assert_eq!(store.put(Key::parameter(1), text), Err(Refusal::Limit));
    }
    assert_eq!(store, Store::new());
}
