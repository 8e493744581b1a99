//! Every example of docs/MANUAL.md, by the library and by the program.

mod common;
#[path = "common/manual.rs"]
mod manual;

use common::{folder, station};
use manual::{examples, Example};
use station::{report, Refusal, Store, Template};

/// The number, line, text and read list of an example.
fn ended(example: &Example) -> (u32, u32, String, String) {
    let store = Store::from_text(&example.store).unwrap();
    match Template::check(&example.template) {
        Err(why) => (why.refusal.number(), why.line, String::new(), String::new()),
        Ok(template) => {
            let report = report(&template, &example.section, &store);
            let reads: String = report.reads.iter().map(|q| format!("{q}\n")).collect();
            (report.number(), report.line, report.text, reads)
        }
    }
}

#[test]
fn every_example_prints_what_is_shown() {
    let examples = examples();
    assert!(examples.len() > 20);
    for example in &examples {
        let (number, line, text, reads) = ended(example);
        match &example.sheet {
            Some(sheet) => assert_eq!(&text, sheet, "line {}", example.place),
            None => assert_ne!(number, 0, "line {}: no sheet", example.place),
        }
        let shown = (example.number, example.line);
        assert_eq!((number, line), shown, "line {}", example.place);
        if let Some(list) = &example.reads {
            assert_eq!(&reads, list, "line {}", example.place);
        }
    }
}

#[test]
fn every_number_of_a_run_is_shown() {
    let mut numbers: Vec<u32> = examples().iter().map(|example| example.number).collect();
    numbers.sort_unstable();
    numbers.dedup();
    // 1 and 2 need bytes that a manual can't show.
    assert_eq!(
        numbers,
        [&[0][..], &(3..=14).collect::<Vec<u32>>()].concat()
    );
}

/// What is said after each line `$ station ..` of a console: both streams.
fn calls(console: &str) -> Vec<(&str, String)> {
    let mut calls: Vec<(&str, String)> = Vec::new();
    for line in console.lines() {
        match (line.strip_prefix("$ station "), calls.last_mut()) {
            (Some(call), _) => calls.push((call, String::new())),
            (None, Some((_, said))) => *said += &format!("{line}\n"),
            (None, None) => panic!("{line}"),
        }
    }
    calls
}

#[test]
fn every_call_of_the_program_says_what_is_shown() {
    let mut count = 0;
    for example in examples() {
        let Some(console) = &example.console else {
            continue;
        };
        let name = format!("manual{}", example.place);
        let files: [(&str, &[u8]); 2] = [
            ("template", example.template.as_bytes()),
            ("store.txt", example.store.as_bytes()),
        ];
        let folder = folder(&name, &files);
        for (call, shown) in calls(console) {
            let words: Vec<&str> = call.split(' ').collect();
            let (_, out, err) = station(&folder, &words);
            assert_eq!(out + &err, shown, "line {}: {call}", example.place);
            count += 1;
        }
    }
    assert!(count >= 15);
}

#[test]
fn the_table_of_refusals_has_them_all() {
    let text = std::fs::read_to_string(common::root().join("docs/MANUAL.md")).unwrap();
    for number in 1..=17 {
        let words = Refusal::from_number(number).unwrap().to_string();
        let row = text
            .lines()
            .find(|line| line.starts_with(&format!("| {number} | ")));
        // The first words are document 01's, where the row leaves something out behind them.
        let first: Vec<&str> = words.split(' ').take(3).collect();
        let row = row.unwrap().replace('`', "");
        assert!(number == 15 || row.contains(&first.join(" ")), "{row}");
    }
}
