//! The public types of the package `station` beside the second interpreter: keys, values, questions, edits, the text form.

use second::Answer as Theirs;
use station::{Answer, Decimal, Key, Question, Store, Value, STORE_BYTES};
use station_tests::generated::store;
use station_tests::random::Random;
use station_tests::report::question;

fn key(random: &mut Random) -> Key {
    let index = |random: &mut Random| random.pick(&[0, 0, 1, 2, 3, 998, 999, 1_000, 65_535]);
    Key {
        datasource: random.pick(&[0, 1, 1, 1, 2, 35, 36, 255]),
        parameter: random.pick(&[0, 1, 1, 2, 3, 65_535]),
        record: index(random),
        entry: index(random),
    }
}

fn value(random: &mut Random) -> Value {
    match random.below(3) {
        0 => Value::Integer(random.any_length(i32::MAX.into()) as i32),
        1 => Value::Decimal(Decimal::from_millionths(random.any_length(i64::MAX))),
        _ => {
            let length = random.below(19);
            let character = |_| random.pick(&['a', 'Z', ' ', '"', '~', '\u{7f}', 'µ', '\n']);
            let plain = (0..length).map(character).filter(|c| *c != '\n');
            Value::Text(plain.collect())
        }
    }
}

/// A value's bytes as document 01 says, for those that a cell can be written of.
fn cell(key: Key, value: &Value) -> Vec<u8> {
    let numbers = [key.datasource.into(), key.parameter, key.record, key.entry];
    let theirs = match value {
        Value::Integer(n) => second::Value::Integer((*n).into()),
        Value::Decimal(d) => second::Value::Decimal(d.millionths()),
        Value::Text(text) => second::Value::String(text.as_bytes().to_vec()),
    };
    station_tests::store::cell(numbers, &theirs)
}

fn asked(random: &mut Random) -> Question {
    let Key {
        datasource,
        parameter,
        record,
        ..
    } = key(random);
    match random.below(3) {
        0 => Question::Cell(key(random)),
        1 => Question::HighestRecord {
            datasource,
            parameter,
        },
        _ => Question::HighestEntry {
            datasource,
            parameter,
            record,
        },
    }
}

/// The second interpreter's answer in the package's terms.
fn ours(answer: Theirs) -> Answer {
    match answer {
        Theirs::Number(n) => Answer::Highest(n as u16),
        Theirs::Cell(second::Value::Missing) => Answer::Missing,
        Theirs::Cell(second::Value::Integer(n)) => Answer::Value(Value::Integer(n as i32)),
        Theirs::Cell(second::Value::Decimal(n)) => {
            Answer::Value(Value::Decimal(Decimal::from_millionths(n)))
        }
        Theirs::Cell(second::Value::String(bytes)) => {
            Answer::Value(Value::Text(String::from_utf8(bytes).unwrap()))
        }
    }
}

#[test]
fn questions_and_edits_are_the_second_interpreters() {
    let mut random = Random::new(0x5eed_0031);
    let (mut ours_store, mut theirs, mut length) = (Store::new(), vec![0; STORE_BYTES], 0);
    let mut seen = [0; 18];
    for _ in 0..30_000 {
        let number = match random.below(4) {
            0 => {
                let (key, value) = (key(&mut random), value(&mut random));
                let edited = second::put(&mut theirs, length, &cell(key, &value));
                length = edited.length;
                let put = ours_store.put(key, value);
                assert_eq!(put.map_or_else(|r| r.number(), |()| 0), edited.number);
                edited.number
            }
            1 => {
                let key = key(&mut random);
                let numbers = [key.datasource.into(), key.parameter, key.record, key.entry];
                let bytes = station_tests::store::key(numbers);
                let edited = second::remove(&mut theirs, length, &bytes);
                length = edited.length;
                let removed = ours_store.remove(key);
                assert_eq!(removed.map_or_else(|r| r.number(), |()| 0), edited.number);
                edited.number
            }
            _ => {
                let asked = asked(&mut random);
                let answer = second::ask(&theirs, length, question(asked.into()));
                match ours_store.ask(asked) {
                    Ok(given) => {
                        assert_eq!((0, given), (answer.number, ours(answer.answer)), "{asked}")
                    }
                    Err(refusal) => assert_eq!(refusal.number(), answer.number, "{asked}"),
                }
                answer.number
            }
        };
        seen[number as usize] += 1;
        assert_eq!(ours_store.as_bytes(), &theirs[..length]);
    }
    assert!([0, 15, 17].iter().all(|&n| seen[n] > 1_000), "{seen:?}");
}

#[test]
fn the_text_form_of_any_store_makes_the_same_store() {
    let mut random = Random::new(0x5eed_0032);
    for _ in 0..3_000 {
        let bytes = store(&mut random);
        let read = Store::from_bytes(&bytes).unwrap();
        let made = Store::from_text(&read.to_text()).unwrap();
        assert_eq!(made.as_bytes(), bytes);
    }
}
