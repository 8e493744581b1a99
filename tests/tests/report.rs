//! Reports beside the second interpreter: numbers, both buffers whole, and what lies behind them.

use second::{Question, Value};
use station_tests::compared::{ask, put, remove};
use station_tests::generated::{case, store, template, Case, MOST_PLACES, MOST_ROOM};
use station_tests::random::Random;
use station_tests::report::{question, report, Asked, Call, Pair};
use station_tests::sheets::{sheets, small_store, Sheet, PAPER, STORE, TEMPLATE};
use station_tests::store::{cell, decimals, key};

/// Room and places to spare for every sheet here.
const ROOM: usize = 65_536;
const PLACES: usize = 4_096;

fn call<'a>(template: &'a [u8], section: &'a [u8], store: &'a [u8]) -> Call<'a> {
    Call {
        template,
        section,
        buffer: store,
        length: store.len(),
    }
}

// ---- generated templates and stores

/// So many cases from a seed; every number from 0 to 14 is met.
fn cases(seed: u64, count: usize) {
    let mut random = Random::new(seed);
    let mut pair = Pair::new(MOST_ROOM, MOST_PLACES);
    let mut seen = [0; 15];
    for _ in 0..count {
        let Case {
            template,
            section,
            buffer,
            length,
            room,
            places,
        } = case(&mut random);
        let handed = Call {
            template: &template,
            section: &section,
            buffer: &buffer,
            length,
        };
        let end = pair.report(handed, room, places);
        seen[end.number as usize] += 1;
    }
    assert!(seen.iter().all(|&n| n > 0), "{seen:?}");
}

#[test]
fn generated_cases_first_quarter_million() {
    cases(0x5eed_0001, 250_000);
}

#[test]
fn generated_cases_second_quarter_million() {
    cases(0x5eed_0002, 250_000);
}

#[test]
fn generated_cases_third_quarter_million() {
    cases(0x5eed_0003, 250_000);
}

#[test]
fn generated_cases_fourth_quarter_million() {
    cases(0x5eed_0004, 250_000);
}

#[test]
fn most_generated_templates_are_accepted() {
    let mut random = Random::new(0x5eed_0005);
    let accepted = (0..2_000)
        .filter(|n| second::check(&template(&mut random, 2 + n % 20), b"").0 == 0)
        .count();
    assert!(accepted > 1_800, "{accepted} of 2,000");
}

#[test]
fn any_bytes_are_a_template_a_name_and_a_store() {
    let mut random = Random::new(0x5eed_0006);
    let mut pair = Pair::new(100, 10);
    for _ in 0..20_000 {
        let mut bytes = |most| -> Vec<u8> {
            let count = random.below(most);
            (0..count).map(|_| random.word() as u8).collect()
        };
        let (template, section, store) = (bytes(60), bytes(10), bytes(40));
        pair.report(call(&template, &section, &store), 100, 10);
        pair.report(call(&template, &section, &[]), 100, 10);
    }
}

#[test]
fn long_templates_to_their_limit_and_one_past_it() {
    let mut pair = Pair::new(ROOM, PLACES);
    let body = "$SEC A\n".to_owned() + &"{P1.1.2,3} some words\n".repeat(1_300);
    for length in [32_766, 32_767, 32_768, 32_769, 40_000] {
        let mut template = body.clone().into_bytes();
        template.resize(length, b'\n');
        let end = pair.report(call(&template, b"A", &small_store()), ROOM, PLACES);
        assert_eq!(end.number == 2, length > 32_768);
    }
}

#[test]
fn long_stores_to_their_limit_and_one_past_it() {
    let mut pair = Pair::new(ROOM, PLACES);
    let store: Vec<u8> = (0..5_462_u16)
        .flat_map(|n| cell([1 + n / 160, 1 + n % 160, n % 7, n % 3], &Value::Integer(7)))
        .collect();
    let text = b"$SEC A\n$BT 160\n$SETDS 35\n{P1.LOOP,3}{P1|RECCNT,4}\n$ET\n";
    for length in [65_520, 65_524, 65_532, 65_536, 65_537, 65_544] {
        let handed = Call {
            template: text,
            section: b"",
            buffer: &store,
            length,
        };
        let end = pair.report(handed, ROOM, PLACES);
        assert_eq!(end.number == 0, length % 12 == 0 && length <= 65_536);
    }
}

/// "A run of cells, 0 to 65,536 bytes": 4,096 decimals are just so many.
#[test]
fn a_store_of_exactly_65_536_bytes_and_a_cell_more() {
    let mut pair = Pair::new(ROOM, PLACES);
    let store = decimals(4_097);
    let text = b"$SEC A\n{P1,8}\n$SETDS 26\n{P96,12}{P97.1.1,4}{P97|RECCNT,2}{P96.0|ENTCNT,2}\n";
    for (length, number) in [(65_520, 0), (65_535, 1), (65_536, 0), (65_552, 1)] {
        for buffer in [&store[..length], &store] {
            let handed = Call {
                template: text,
                section: b"A",
                buffer,
                length,
            };
            let end = pair.report(handed, ROOM, PLACES);
            assert_eq!(
                (end.number, end.questions),
                (number, if number == 0 { 5 } else { 0 })
            );
            if length == 65_536 {
                assert_eq!(pair.text(&end), b"0.000000\n 4095.004095???  0 0\n");
            }
        }
    }
}

// ---- room and places

#[test]
fn every_room_and_every_number_of_places_of_a_dozen_sheets() {
    let sheets = sheets();
    assert_eq!(sheets.len(), 12);
    let mut pair = Pair::new(ROOM, PLACES);
    for Sheet {
        template,
        section,
        store,
    } in &sheets
    {
        let handed = call(template, section, store);
        let whole = pair.report(handed, ROOM, PLACES);
        assert_eq!(whole.number, 0, "{}", String::from_utf8_lossy(template));
        let text = pair.text(&whole).to_vec();
        let reads = pair.reads(&whole).to_vec();
        for room in 0..=text.len() {
            let end = pair.report(handed, room, PLACES);
            assert_eq!(end.number, if room < text.len() { 14 } else { 0 });
            assert!(text.starts_with(pair.text(&end)));
            assert!(reads.starts_with(pair.reads(&end)));
        }
        for places in 0..=reads.len() {
            let end = pair.report(handed, ROOM, places);
            assert_eq!(end.number, if places < reads.len() { 9 } else { 0 });
            assert!(text.starts_with(pair.text(&end)));
            assert_eq!(reads[..places], *pair.reads(&end));
        }
        let both = (text.len() / 2, reads.len() / 2);
        pair.report(handed, both.0, both.1);
        pair.report(handed, 0, 0);
    }
}

/// "A refused step prints nothing and leaves the page": text lines, headings, blank lines and breaks, refused with 8, 9, 11 and 14. What
/// the steps before printed stands, and not a byte more.
#[test]
fn a_refused_step_prints_nothing_and_leaves_the_page() {
    let page = "x\n".repeat(60);
    // Lines behind $SEC A, room and places; number and line; the text that stands, and its pages.
    let rows: [(&str, usize, usize, u32, u32, &str, u32); 11] = [
        ("a\n$SETE IV1 1000\nb{P1.IV1,1}", 99, 9, 8, 4, "a\n", 1),
        ("a\nb{P1,1}{P2,1}", 99, 1, 9, 3, "a\n", 1),
        ("a\nb{IV1|LEN,1}", 99, 9, 11, 3, "a\n", 1),
        ("a\nbc", 4, 9, 14, 3, "a\n", 1),
        ("$PH1 h{IV1|LEN,1}\nx", 99, 9, 11, 2, "", 1),
        ("$PH1 h\nx", 2, 9, 14, 3, "h\n", 1),
        ("$PH2 h\nx", 0, 9, 14, 3, "", 1),
        ("$NP\nx", 0, 9, 14, 2, "", 1),
        ("$NP\nx", 2, 9, 14, 3, "\x0c", 2),
        ("a\n$PH1 {P1,1}\n$NP\nb", 99, 0, 9, 3, "a\n\x0c", 2),
        ("$BT 61\nx\n$ET", 120, 9, 14, 3, &page, 1),
    ];
    let mut pair = Pair::new(120, 9);
    for (lines, room, places, number, line, text, pages) in rows {
        let template = format!("$SEC A\n{lines}");
        let end = pair.report(call(template.as_bytes(), b"A", &[]), room, places);
        assert_eq!(
            (end.number, end.line, end.pages),
            (number, line, pages),
            "{lines}"
        );
        let mut buffer = [0xee; 120];
        let mut reads = vec![Asked::default(); places];
        report(
            template.as_bytes(),
            b"A",
            &[],
            0,
            &mut buffer[..room],
            &mut reads,
        );
        let (stands, rest) = buffer.split_at(text.len());
        assert_eq!(stands, text.as_bytes(), "{lines}");
        assert!(rest.iter().all(|&byte| byte == 0xee), "{lines}");
    }
}

#[test]
fn empty_slices_may_be_null() {
    let ends = |template| {
        let e = station::testing::report_of_nulls(template);
        (e.number, e.line, e.pages, e.text_bytes, e.questions)
    };
    assert_eq!(ends(b""), (6, 0, 0, 0, 0));
    assert_eq!(ends(b"$SEC A\n"), (0, 0, 1, 0, 0));
    assert_eq!(ends(b"$SEC A\nx"), (14, 2, 1, 0, 0));
    assert_eq!(ends(b"$SEC A\n{P1,2}"), (9, 2, 1, 0, 0));
}

// ---- 50,000 lines

#[test]
fn fifty_thousand_lines_and_one_more() {
    let mut pair = Pair::new(ROOM, PLACES);
    // A table of two lines a pass: $SEC, $BT, 24,999 passes are 50,000 lines.
    let rows: [(&str, u32, u32); 9] = [
        ("$SEC A\n$BT 24999\n$SETA IV1 1\n$ET", 0, 0),
        ("$SEC A\n$BT 24999\n$SETA IV1 1\n$ET\n$REM", 7, 5),
        ("$SEC A\n$BT 25000\n$SETA IV1 1\n$ET", 7, 3),
        ("$SEC A\n$REM\n$BT 24999\n$SETA IV1 1\n$ET", 7, 5),
        ("$SEC A\n$BT 49998\n$ET", 0, 0),
        ("$SEC A\n$BT 49998\n$ET\nx", 7, 4),
        ("$SEC A\n$BT 24999\n$IF 0\nx\n$ENDIF\n$ET", 0, 0),
        ("$SEC A\n$BT 16666\n$IF 1\n$ENDIF\n$ET\n$SEC B", 7, 6),
        ("$SEC A\n$BT 2000000000 \n$ET", 3, 2),
    ];
    for (template, number, line) in rows {
        let end = pair.report(call(template.as_bytes(), b"", &[]), ROOM, PLACES);
        assert_eq!((end.number, end.line), (number, line), "{template}");
    }
    let long: [&str; 5] = [
        "$SEC A\n$BT 2000000000\n$ET 2000000000\n$BT 999999999\n$ET LOOP",
        "$SEC A\n$BT 5\n$BT 9\n$BT 9\n$BT 9\n$BT 9\n$SETA FV1 0.000001\n$ET\n$ET\n$ET\n$ET\n{FV1,9}\n$ET\n",
        "$SEC A\n$BT 20000\n$NP\n$ET\n",
        "$SEC A\n$NOFF\n$BT 20000\n$NP\n$ET\n{PAGENUM,5}\n",
        "$SEC A\n$PH1 {PAGENUM,5}\n$BT 4000\n{LOOP,4} {P1.1,2}\n$ET\n",
    ];
    for template in long {
        pair.report(call(template.as_bytes(), b"", &small_store()), ROOM, PLACES);
    }
}

// ---- reprints

/// A key, mostly one of the read list's or of the cells that templates name.
fn some_key(random: &mut Random, reads: &[Asked]) -> [u16; 4] {
    if !reads.is_empty() && random.below(3) == 0 {
        let q = random.pick(reads);
        return [q.datasource, q.parameter, q.record, q.entry].map(|n| n as u16);
    }
    [
        random.pick(&[1, 1, 2, 35]),
        1 + random.below(6) as u16,
        random.below(6) as u16,
        random.below(4) as u16,
    ]
}

fn some_value(random: &mut Random) -> Value {
    match random.below(3) {
        0 => Value::Integer(random.any_length(3_000)),
        1 => Value::Decimal(random.any_length(3_000_000_000)),
        _ => Value::String(random.pick(&["", "Cs-137", "x"]).into()),
    }
}

#[test]
fn a_reprint_is_the_first_sheet_where_every_question_answers_as_before() {
    let mut random = Random::new(0x5eed_0007);
    let mut pair = Pair::new(6_000, 500);
    let (mut same, mut other) = (0, 0);
    for round in 0..30_000 {
        let template = template(&mut random, 3 + round % 15);
        let mut buffer = store(&mut random);
        let mut length = buffer.len();
        buffer.resize(length + random.below(80) as usize, 0xa5);
        if random.below(20) == 0 && length > 0 {
            buffer[random.below(length as u64) as usize] ^= 0x11;
        }
        let first = Call {
            template: &template,
            section: b"",
            buffer: &buffer.clone(),
            length,
        };
        let end = pair.report(first, 6_000, 500);
        let text = pair.text(&end).to_vec();
        let reads = pair.reads(&end).to_vec();
        let questions: Vec<Question> = reads.iter().map(|&q| question(q)).collect();
        let before: Vec<_> = questions.iter().map(|&q| ask(&buffer, length, q)).collect();
        for _ in 0..random.below(6) {
            let place = some_key(&mut random, &reads);
            let edited = match random.below(2) {
                0 => put(&mut buffer, length, &cell(place, &some_value(&mut random))),
                _ => remove(&mut buffer, length, &key(place)),
            };
            length = edited.length;
        }
        let after: Vec<_> = questions.iter().map(|&q| ask(&buffer, length, q)).collect();
        let again = Call {
            template: &template,
            section: b"",
            buffer: &buffer,
            length,
        };
        let reprint = pair.report(again, 6_000, 500);
        if before == after {
            same += 1;
            assert_eq!(reprint, end);
            assert_eq!(pair.text(&reprint), text);
            assert_eq!(pair.reads(&reprint), reads);
        } else {
            other += 1;
        }
    }
    assert!(same > 1_000 && other > 1_000, "{same} and {other}");
}

#[test]
fn a_reprint_does_not_depend_on_what_the_buffers_held() {
    for Sheet {
        template,
        section,
        store,
    } in sheets()
    {
        let held = |byte: u8, n: u32| {
            let mut text = vec![byte; 9_000];
            let mut reads = vec![
                Asked {
                    kind: n,
                    ..Asked::default()
                };
                900
            ];
            let end = report(
                &template,
                section,
                &store,
                store.len(),
                &mut text,
                &mut reads,
            );
            text.truncate(end.text_bytes);
            reads.truncate(end.questions);
            (end, text, reads)
        };
        assert_eq!(held(0, 0), held(0xff, u32::MAX));
    }
}

// ---- the shipped templates and stores

const SHIPPED: [(&[u8], &[u8], &[u8]); 4] = [
    (TEMPLATE, b"SHEET", STORE),
    (TEMPLATE, b"LIST", STORE),
    (TEMPLATE, b"", STORE),
    (PAPER, b"A", b""),
];

#[test]
fn every_prefix_of_the_shipped_templates_and_stores() {
    let mut pair = Pair::new(ROOM, PLACES);
    for (template, section, store) in SHIPPED {
        for end in 0..=template.len() {
            pair.report(call(&template[..end], section, store), ROOM, PLACES);
        }
        for length in 0..=store.len() {
            pair.report(call(template, section, &store[..length]), ROOM, PLACES);
            let handed = Call {
                template,
                section,
                buffer: store,
                length,
            };
            pair.report(handed, ROOM, PLACES);
        }
    }
}

/// Every place of the template and of the store with each of the bytes that `to` gives, the places dealt out to a thread for
/// each core.
fn changed(section: &[u8], to: impl Fn(u8) -> Vec<u8> + Sync) {
    let threads = std::thread::available_parallelism().map_or(1, usize::from);
    let places: usize = std::thread::scope(|scope| {
        let deal = |first| {
            let to = &to;
            scope.spawn(move || changed_from(first, threads, section, to))
        };
        let running: Vec<_> = (0..threads).map(deal).collect();
        running.into_iter().map(|t| t.join().unwrap()).sum()
    });
    let sheets = SHIPPED.iter().filter(|sheet| sheet.1 == section);
    let all: usize = sheets.map(|(t, _, s)| t.len() + s.len()).sum();
    assert_eq!(places, all);
}

/// Every so manyth place from the first on; how many places these are.
fn changed_from(first: usize, step: usize, section: &[u8], to: &impl Fn(u8) -> Vec<u8>) -> usize {
    let mut pair = Pair::new(ROOM, PLACES);
    let mut places = 0;
    for (template, _, store) in SHIPPED.iter().filter(|sheet| sheet.1 == section) {
        let (mut template, mut store) = (template.to_vec(), store.to_vec());
        for at in (first..template.len()).step_by(step) {
            let was = template[at];
            for byte in to(was) {
                template[at] = byte;
                pair.report(call(&template, section, &store), ROOM, PLACES);
            }
            template[at] = was;
            places += 1;
        }
        for at in (first..store.len()).step_by(step) {
            let was = store[at];
            for byte in to(was) {
                store[at] = byte;
                pair.report(call(&template, section, &store), ROOM, PLACES);
            }
            store[at] = was;
            places += 1;
        }
    }
    places
}

/// Each bit the other way, and the bytes that mean something in a template or a store.
fn telling(was: u8) -> Vec<u8> {
    let bits = (0..8).map(|bit| was ^ 1 << bit);
    bits.chain(*b"${}\"0 \n|\x00\xff").collect()
}

#[test]
fn single_bits_and_telling_bytes_of_the_shipped_sheet() {
    changed(b"SHEET", telling);
}

#[test]
fn single_bits_and_telling_bytes_of_the_shipped_list() {
    changed(b"LIST", telling);
}

#[test]
fn every_single_byte_change_of_the_papers_sheet() {
    changed(b"A", |was| (0..=255).filter(|&b| b != was).collect());
}

#[test]
fn every_single_byte_change_of_the_shipped_template_and_store() {
    changed(b"", |was| (0..=255).filter(|&b| b != was).collect());
}
