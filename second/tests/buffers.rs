//! What calls leave in buffers, the store's form, questions and edits.

mod common;
use common::*;
use second::store::in_form;
use second::{ask, put, remove, report, Answer, Edited, Question, Value};

/// A store of three cells with 0xEE behind it, and its length.
fn three_cells() -> (Vec<u8>, usize) {
    let cells = [
        string((2, 0, 0), "Cs-137"),
        integer((1, 5, 0), -7),
        decimal((1, 5, 3), 1_500_000),
    ];
    let mut buffer = store(&cells);
    let length = buffer.len();
    buffer.resize(100, UNTOUCHED);
    (buffer, length)
}

/// An edit that is refused and changes nothing.
fn refused(number: u32, edit: impl Fn(&mut [u8], usize) -> Edited) {
    let (before, length) = three_cells();
    let mut after = before.clone();
    assert_eq!(edit(&mut after, length), Edited { number, length });
    assert_eq!(after, before);
}

#[test]
fn reports_ending_in_1_to_6_touch_no_buffer_and_give_zeros() {
    let cases: [(&[u8], &[u8], u32); 6] = [
        (b"$SEC A\nx", b"?", 1),
        (b"$SEC A\n\x00", b"", 2),
        (b"$SEC A\n$X", b"", 3),
        (b"$SEC A\n$ET", b"", 4),
        (b"$SEC A\n$SEC A", b"", 5),
        (b"$SEC B\n{P1,3}", b"", 6),
    ];
    for (template, store, number) in cases {
        // The helper sees that all beyond the counts is untouched.
        let end = lent(template, b"A", store, 50, 5).end;
        let counts = (end.pages, end.text_bytes, end.questions);
        assert_eq!((end.number, counts), (number, (0, 0, 0)));
    }
}

#[test]
fn text_and_reads_past_what_was_printed_and_asked_are_untouched() {
    let mut text = [UNTOUCHED; 12];
    let mut reads = [NO_QUESTION; 4];
    let template = b"$SEC A\n{P1,3}\n{P2,1}{SV1|ABS,9}";
    let end = report(template, b"A", &[], 0, &mut text, &mut reads);
    assert_eq!((end.number, end.line), (11, 3));
    assert_eq!(&text, b"???\n\xEE\xEE\xEE\xEE\xEE\xEE\xEE\xEE");
    assert_eq!(reads[..2], [1, 2].map(|p| question(1, 1, p, 0, 0)));
    assert_eq!(reads[2..], [NO_QUESTION; 2]);
}

#[test]
fn a_line_that_does_not_fit_leaves_no_part_of_itself() {
    let sheet = lent(b"$SEC A\nab\ncdefgh", b"A", &[], 8, 0);
    assert_eq!((sheet.ends(), sheet.text.as_str()), ((14, 3), "ab\n"));
}

#[test]
fn the_read_list_keeps_asking_order_and_repeats() {
    let sheet = run("{P2,3}{P1,3}{P2,3}");
    assert_eq!(sheet.reads, [2, 1, 2].map(|p| question(1, 1, p, 0, 0)));
}

#[test]
fn the_store_may_be_shorter_than_its_buffer() {
    let (buffer, length) = three_cells();
    let mut text = [0; 20];
    let mut reads = [Question::default(); 2];
    let end = report(
        b"$SEC A\n{P1.5,3}",
        b"A",
        &buffer,
        length,
        &mut text,
        &mut reads,
    );
    assert_eq!((end.number, &text[..4]), (0, b" -7\n".as_slice()));
    assert!(!in_form(&buffer, length + 1));
    assert!(!in_form(&buffer, buffer.len() + 1));
    assert!(!in_form(&buffer, usize::MAX));
}

#[test]
fn cells_in_form() {
    let limit = 2_000_000_000;
    let micro = 2_000_000_000_000_000;
    for good in [
        integer((1, 0, 0), limit),
        integer((65_535, 999, 999), -limit),
        decimal((1, 0, 0), micro),
        decimal((1, 0, 0), -micro),
        string((1, 0, 0), ""),
        string((1, 0, 0), " 234567890abcde~"),
        in_datasource(35, integer((1, 0, 0), 0)),
    ] {
        assert!(in_form(&good, good.len()), "{good:?}");
        for shorter in 1..good.len() {
            assert!(!in_form(&good, shorter), "{good:?} {shorter}");
        }
        assert_eq!(put(&mut [0; 30], 0, &good).number, 0);
    }
    assert!(in_form(&[], 0));
}

/// Cells that break a limit each.
fn bad_cells() -> Vec<Vec<u8>> {
    let mut bad = vec![
        vec![],
        integer((1, 0, 0), 2_000_000_001),
        integer((1, 0, 0), -2_000_000_001),
        integer((1, 0, 0), i32::MIN),
        decimal((1, 0, 0), 2_000_000_000_000_001),
        decimal((1, 0, 0), -2_000_000_000_000_001),
        decimal((1, 0, 0), i64::MIN),
        integer((0, 0, 0), 1),
        integer((1, 1_000, 0), 1),
        integer((1, 0, 1_000), 1),
        integer((1, 65_535, 0), 1),
        in_datasource(0, integer((1, 0, 0), 1)),
        in_datasource(36, integer((1, 0, 0), 1)),
        cell(b'i', &key(1, 1, 0, 0), &[0; 4]),
        cell(b'I', &key(1, 1, 0, 0), &[0; 3]),
        cell(b'I', &key(1, 1, 0, 0), &[0; 5]),
        cell(b'F', &key(1, 1, 0, 0), &[0; 7]),
        cell(b'S', &key(1, 1, 0, 0), &[0; 18]),
    ];
    for (place, byte) in [
        (8, 17),
        (8, 255),
        (9, 0x1F),
        (9, 0x7F),
        (9, 0),
        (10, 1),
        (24, b' '),
    ] {
        let mut string = string((1, 0, 0), "x");
        string[place] = byte;
        bad.push(string);
    }
    bad
}

#[test]
fn what_is_not_a_cell_in_form_of_its_exact_length_is_15() {
    for bad in bad_cells() {
        assert!(bad.is_empty() || !in_form(&bad, bad.len()), "{bad:?}");
        refused(15, |store, length| put(store, length, &bad));
    }
    let two = [integer((8, 0, 0), 1), integer((9, 0, 0), 1)].concat();
    assert!(in_form(&two, two.len()));
    refused(15, |store, length| put(store, length, &two));
}

#[test]
fn what_is_not_seven_bytes_of_a_key_in_its_limits_is_15() {
    let long = [key(1, 1, 5, 0), vec![0]].concat();
    let short = key(1, 1, 5, 0)[..6].to_vec();
    let outside = [key(0, 1, 5, 0), key(36, 1, 5, 0), key(1, 0, 5, 0)];
    for bad in outside
        .into_iter()
        .chain([key(1, 1, 1_000, 0), key(1, 1, 5, 1_000)])
    {
        refused(15, |store, length| remove(store, length, &bad));
    }
    for bad in [long, short, vec![]] {
        refused(15, |store, length| remove(store, length, &bad));
    }
}

#[test]
fn keys_rise_strictly() {
    let (a, b) = (integer((1, 0, 1), 1), integer((1, 1, 0), 1));
    let rises = [a.clone(), b.clone()].concat();
    assert!(in_form(&rises, rises.len()));
    for wrong in [[b, a.clone()].concat(), [a.clone(), a].concat()] {
        assert!(!in_form(&wrong, wrong.len()));
    }
    // The datasource counts before the parameter, that before the record.
    let ordered = [
        integer((256, 0, 0), 1),
        integer((257, 0, 0), 1),
        in_datasource(2, integer((1, 0, 0), 1)),
    ]
    .concat();
    assert!(in_form(&ordered, ordered.len()));
}

#[test]
fn a_store_has_at_most_65_536_bytes() {
    let mut cells = Vec::new();
    for n in 0..5_460 {
        cells.extend(integer((1 + n / 1_000, n % 1_000, 0), 1));
    }
    assert!(in_form(&cells, 65_520));
    // 5,459 integers and a string are 65,533 bytes; an integer more is too much.
    cells.truncate(65_508);
    cells.extend(in_datasource(2, string((1, 0, 0), "")));
    assert_eq!(cells.len(), 65_533);
    assert!(in_form(&cells, 65_533));
    cells.extend(in_datasource(2, integer((2, 0, 0), 1)));
    assert!(!in_form(&cells, cells.len()));
}

#[test]
fn put_adds_in_the_order_of_keys_and_bytes_past_both_lengths_stay() {
    let (mut buffer, length) = three_cells();
    let edited = put(&mut buffer, length, &integer((1, 5, 1), 9));
    let (number, length) = (0, length + 12);
    assert_eq!(edited, Edited { number, length });
    let expected = [
        integer((1, 5, 0), -7),
        integer((1, 5, 1), 9),
        decimal((1, 5, 3), 1_500_000),
        string((2, 0, 0), "Cs-137"),
    ]
    .concat();
    assert_eq!(buffer[..length], expected);
    assert!(buffer[length..].iter().all(|&byte| byte == UNTOUCHED));
}

#[test]
fn put_replaces_whichever_kind_and_zeroes_what_it_frees() {
    let (mut buffer, length) = three_cells();
    let edited = put(&mut buffer, length, &integer((2, 0, 0), 4));
    assert_eq!((edited.number, edited.length), (0, length - 13));
    assert_eq!(buffer[length - 25..length - 13], integer((2, 0, 0), 4));
    assert_eq!(buffer[length - 13..length], [0; 13]);
    assert!(buffer[length..].iter().all(|&byte| byte == UNTOUCHED));
    // Replacing by a longer one moves the others up.
    let edited = put(&mut buffer, edited.length, &string((1, 5, 0), "x"));
    assert_eq!((edited.number, edited.length), (0, length));
    assert!(in_form(&buffer, length));
    assert!(buffer[length..].iter().all(|&byte| byte == UNTOUCHED));
}

#[test]
fn put_of_the_same_cell_changes_nothing() {
    let (before, length) = three_cells();
    let mut after = before.clone();
    let edited = put(&mut after, length, &integer((1, 5, 0), -7));
    assert_eq!((edited.number, edited.length), (0, length));
    assert_eq!(after, before);
}

#[test]
fn put_may_fill_the_buffer_to_its_end_but_not_past_it() {
    let (buffer, length) = three_cells();
    let mut exact = buffer[..length + 12].to_vec();
    assert_eq!(put(&mut exact, length, &integer((9, 0, 0), 1)).number, 0);
    let mut small = buffer[..length + 11].to_vec();
    let before = small.clone();
    let edited = put(&mut small, length, &integer((9, 0, 0), 1));
    let number = 16;
    assert_eq!((edited, small), (Edited { number, length }, before));
    // A replacement that doesn't grow always fits.
    let mut full = buffer[..length].to_vec();
    assert_eq!(put(&mut full, length, &integer((1, 5, 0), 1)).number, 0);
    assert_eq!(put(&mut full, length, &string((1, 5, 0), "")).number, 16);
}

#[test]
fn remove_takes_a_cell_out_and_zeroes_what_it_frees() {
    let (mut buffer, length) = three_cells();
    let edited = remove(&mut buffer, length, &key(1, 1, 5, 0));
    assert_eq!((edited.number, edited.length), (0, length - 12));
    let rest = [decimal((1, 5, 3), 1_500_000), string((2, 0, 0), "Cs-137")].concat();
    assert_eq!(buffer[..length - 12], rest);
    assert_eq!(buffer[length - 12..length], [0; 12]);
    assert!(buffer[length..].iter().all(|&byte| byte == UNTOUCHED));
    refused(17, |store, length| remove(store, length, &key(1, 1, 5, 1)));
    refused(17, |store, length| {
        remove(store, length, &key(35, 65_535, 999, 999))
    });
}

#[test]
fn the_last_cell_removed_leaves_an_empty_store() {
    let mut buffer = integer((1, 0, 0), 1);
    let edited = remove(&mut buffer, 12, &key(1, 1, 0, 0));
    assert_eq!((edited.number, edited.length), (0, 0));
    assert_eq!(buffer, [0; 12]);
    assert_eq!(remove(&mut buffer, 0, &key(1, 1, 0, 0)).number, 17);
}

#[test]
fn edits_of_a_store_out_of_form_are_1_and_hand_back_the_old_length() {
    let mut buffer = [0; 20];
    for length in [1, 20, 21, usize::MAX] {
        let number = 1;
        let edited = put(&mut buffer, length, &integer((1, 0, 0), 1));
        assert_eq!(edited, Edited { number, length });
        let edited = remove(&mut buffer, length, &key(1, 1, 0, 0));
        assert_eq!(edited, Edited { number, length });
    }
    assert_eq!(buffer, [0; 20]);
}

#[test]
fn ask_answers_each_kind() {
    let (buffer, length) = three_cells();
    let answer = |kind, parameter, record, entry| {
        let asked = ask(&buffer, length, question(kind, 1, parameter, record, entry));
        assert_eq!(asked.number, 0);
        asked.answer
    };
    assert_eq!(answer(1, 1, 5, 0), Answer::Cell(Value::Integer(-7)));
    assert_eq!(answer(1, 1, 5, 3), Answer::Cell(Value::Decimal(1_500_000)));
    let string = Value::String(b"Cs-137".to_vec());
    assert_eq!(answer(1, 2, 0, 0), Answer::Cell(string));
    assert_eq!(answer(1, 1, 5, 1), Answer::Cell(Value::Missing));
    assert_eq!(answer(2, 1, 0, 0), Answer::Number(5));
    assert_eq!(answer(2, 3, 0, 0), Answer::Number(0));
    assert_eq!(answer(3, 1, 5, 0), Answer::Number(3));
    assert_eq!(answer(3, 1, 4, 0), Answer::Number(0));
    assert_eq!(answer(3, 2, 0, 0), Answer::Number(0));
}

#[test]
fn highest_numbers_keep_to_their_datasource_parameter_and_record() {
    let cells = store(&[
        integer((5, 1, 8), 1),
        integer((5, 2, 7), 1),
        integer((6, 3, 9), 1),
        in_datasource(2, integer((5, 4, 4), 1)),
    ]);
    let number = |q| ask(&cells, cells.len(), q).answer;
    assert_eq!(number(question(2, 1, 5, 0, 0)), Answer::Number(2));
    assert_eq!(number(question(2, 2, 5, 0, 0)), Answer::Number(4));
    assert_eq!(number(question(2, 1, 7, 0, 0)), Answer::Number(0));
    assert_eq!(number(question(2, 35, 65_535, 0, 0)), Answer::Number(0));
    assert_eq!(number(question(3, 1, 5, 1, 0)), Answer::Number(8));
    assert_eq!(number(question(3, 1, 5, 3, 0)), Answer::Number(0));
    assert_eq!(number(question(3, 1, 6, 999, 0)), Answer::Number(0));
}

#[test]
fn highest_numbers_reach_999() {
    let last = integer((5, 999, 999), 1);
    let number = |kind, record| ask(&last, 12, question(kind, 1, 5, record, 0)).answer;
    assert_eq!(number(2, 0), Answer::Number(999));
    assert_eq!(number(3, 999), Answer::Number(999));
    assert_eq!(number(3, 998), Answer::Number(0));
}

#[test]
fn a_refused_ask_answers_missing() {
    let missing = Answer::Cell(Value::Missing);
    let good = question(2, 1, 1, 0, 0);
    let cases = [
        ask(&[1], 1, good),
        ask(&[], 1, good),
        ask(&[], 0, question(2, 1, 1, 0, 1)),
    ];
    assert_eq!(cases.clone().map(|asked| asked.number), [1, 1, 15]);
    assert!(cases.into_iter().all(|asked| asked.answer == missing));
}

#[test]
fn reports_agree_after_edits_that_leave_every_answer_as_before() {
    let (mut buffer, length) = three_cells();
    let template = b"$SEC A\n{P1.5,3}{P1|RECCNT,2}{P2,6}";
    let before = lent(template, b"A", &buffer[..length], 99, 9);
    let added = put(&mut buffer, length, &integer((1, 4, 9), 1));
    assert_eq!(lent(template, b"A", &buffer[..added.length], 99, 9), before);
    let higher = put(&mut buffer, added.length, &integer((1, 6, 0), 1));
    let after = lent(template, b"A", &buffer[..higher.length], 99, 9);
    assert_eq!(
        (before.text.as_str(), after.text.as_str()),
        (" -7 5Cs-137\n", " -7 6Cs-137\n")
    );
}
