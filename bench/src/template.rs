//! The check of templates of 32,768 bytes, beside the second interpreter's and a plain scan of the bytes.

use crate::{stack, time};
use station_tests::random::Random;
use station_tests::sections::{self, name, name_at_random};
use station_tests::template::check;
use std::hint::black_box;

const LONGEST: usize = 32_768;

/// The first section, then these lines again and again, then empty lines.
fn filled(lines: &[&str]) -> Vec<u8> {
    let mut template = b"$SEC 0000\n".to_vec();
    let block: String = lines.iter().map(|line| format!("{line}\n")).collect();
    while template.len() + block.len() <= LONGEST {
        template.extend(block.as_bytes());
    }
    template.resize(LONGEST, b'\n');
    template
}

/// So many sections, evenly spread, with text between them.
fn spread(count: usize) -> Vec<u8> {
    let mut template = Vec::new();
    for n in 0..count {
        template.extend(format!("$SEC {n:04}\n").bytes());
        let end = LONGEST * (n + 1) / count;
        while template.len() + 18 <= end {
            template.extend(b"value is {IV1,4}\n");
        }
    }
    template.resize(LONGEST, b'\n');
    template
}

/// Sections with these names and nothing else.
fn named(names: &[String]) -> Vec<u8> {
    let mut template = sections::template(names, "");
    assert!(template.len() <= LONGEST);
    template.resize(LONGEST, b'\n');
    template
}

/// The last of the orders: none.
fn mixed(names: Vec<String>) -> Vec<String> {
    let [.., (_, mixed)] = sections::orders(&names);
    mixed
}

fn at_random() -> Vec<String> {
    let mut random = Random::new(5);
    (0..2_340).map(|_| name_at_random(&mut random, 8)).collect()
}

/// Names that share the remainder by which check 5 once noted names.
fn of_one_remainder() -> Vec<String> {
    let remainder = |name: &String| {
        name.bytes()
            .fold(0, |key, b| (key * 927 + u64::from(b)) % 16_361)
    };
    let numbers = (0..).map(|n| format!("{n:08}"));
    mixed(
        numbers
            .filter(|name| remainder(name) == 5)
            .take(2_340)
            .collect(),
    )
}

fn alike() -> Vec<String> {
    mixed((0..2_340).map(|n| format!("ALIKE{}", name(n, 3))).collect())
}

/// Names of eight characters in no order.
const LONG_NAMES: [(&str, fn() -> Vec<String>); 3] = [
    ("at random", at_random),
    ("of one remainder", of_one_remainder),
    ("alike in five characters", alike),
];

/// "0x20–0x7E or 0x0A", byte by byte.
fn scan(template: &[u8]) -> usize {
    let allowed = |b: u8| (0x20..=0x7e).contains(&b) || b == 0x0a;
    let mut at = 0;
    while at < template.len() && allowed(template[at]) {
        at += 1;
    }
    at
}

fn times(name: &str, template: &[u8]) {
    let section = template[5..].split(|b| *b == b'\n').next().unwrap();
    assert_eq!(check(template, section), (0, 0), "{name}");
    let [checked, scanned, theirs] = time::nanoseconds(
        100,
        [
            (1, &mut |_| {
                black_box(check(black_box(template), section));
            }),
            (10, &mut |_| {
                black_box(scan(black_box(template)));
            }),
            (1, &mut |_| {
                black_box(second::template::check(black_box(template), section));
            }),
        ],
    );
    println!(
        "| {name} | {:.1} | {:.2} |",
        checked / scanned,
        checked / theirs
    );
}

/// A template's name, and how it is made.
type Made = (String, Box<dyn Fn() -> Vec<u8>>);

/// The templates that are timed; each is made where it is needed, since the names of some take long to find.
fn all() -> Vec<Made> {
    let fields = "{IV1,4}{FV99,6.2}{SV7,4}{P12.3,3}{9,1}{R2,2}{P3.IV2.LOOP,9.3}{P1|RECCNT,7}{\"abc\",5}{PAGENUM,3}";
    let deep = [
        ["$IF IV1"; 10].as_slice(),
        &["$BT 1"; 5],
        &["$ET"; 5],
        &["$ENDIF"; 10],
    ]
    .concat();
    let mut all: Vec<Made> = Vec::new();
    let mut add = |name: &str, made: Box<dyn Fn() -> Vec<u8>>| all.push((name.to_owned(), made));
    add(
        "lines of 132 bytes",
        Box::new(|| filled(&[&"x".repeat(132)])),
    );
    add("empty lines", Box::new(|| filled(&[""])));
    add("lines full of fields", Box::new(move || filled(&[fields])));
    add(
        "10 tests and 5 tables deep",
        Box::new(move || filled(&deep)),
    );
    add("100 sections", Box::new(|| spread(100)));
    add("1,000 sections", Box::new(|| spread(1_000)));
    add(
        "3,276 sections, names that count up",
        Box::new(|| spread(LONGEST / 10)),
    );
    for (kind, names) in LONG_NAMES {
        let name = format!("2,340 sections, names {kind}");
        add(&name, Box::new(move || named(&names())));
    }
    for (n, (order, _)) in sections::orders(&[String::new()]).into_iter().enumerate() {
        let name = format!("3,792 sections, names {order}");
        let made = move || named(&sections::orders(&sections::most())[n].1);
        add(&name, Box::new(made));
    }
    all
}

/// One check of the n-th template, whose instructions callgrind counts; nothing where there are fewer.
pub fn once(n: usize) {
    if let Some((name, made)) = all().get(n) {
        assert_eq!(check(&made(), b""), (0, 0), "{name}");
        println!("{name}");
    }
}

pub fn run() {
    println!("Ratios of times, templates of 32,768 bytes:");
    println!("| template | check / scan | check / second's check |");
    println!("| --- | --- | --- |");
    for (name, made) in all() {
        times(&name, &made());
    }
    let template = spread(1_000);
    let used = stack::used(move || {
        black_box(check(&template, b"0000"));
    });
    println!("\nstack in bytes, of 65,536: check {used}\n");
    assert!(used < 65_536, "check uses more than 64 KB of stack");
}
