//! Check 5 on templates of many sections, beside the second interpreter: names in the orders that the proved check's row of places
//! may meet, each also with one name repeated.

use station_tests::random::Random;
use station_tests::sections::{most, name, name_at_random, orders, template};
use station_tests::template::check;

fn compare(names: &[String], lines: &str) -> (u32, u32) {
    let template = template(names, lines);
    let ours = check(&template, b"");
    assert_eq!(ours, second::template::check(&template, b""), "{names:?}");
    ours
}

/// As they are; then with an earlier name put in again at random, one of eight characters with a ninth behind it.
fn compare_with_repeats(names: &[String], lines: &str, random: &mut Random) {
    assert_eq!(compare(names, lines), (0, 0));
    for _ in 0..20 {
        let mut names = names.to_vec();
        let later = 1 + random.below(names.len() as u64 - 1) as usize;
        let earlier = random.below(later as u64) as usize;
        let name = names[earlier].clone();
        let end = if name.len() == 8 { "Z" } else { "" };
        names.insert(later, name + end);
        let before = later * (1 + lines.lines().count());
        assert_eq!(compare(&names, lines), (5, before as u32 + 1));
    }
}

/// In every order, with repeats at random; with a line behind each section too, where there is room.
fn compare_in_orders(mut names: Vec<String>, seed: u64) {
    let mut random = Random::new(seed);
    names.sort();
    names.dedup();
    let room = template(&names, "x\n").len() < 32_740;
    for (_, names) in orders(&names) {
        compare_with_repeats(&names, "", &mut random);
        if room {
            compare_with_repeats(&names, "x\n", &mut random);
        }
    }
}

#[test]
fn numbers() {
    for count in [2, 100, 1_000, 2_500] {
        compare_in_orders((0..count).map(|n| format!("{n}")).collect(), 1);
        compare_in_orders((0..count).map(|n| format!("S{n:04}")).collect(), 2);
    }
}

#[test]
fn names_at_random() {
    let mut random = Random::new(3);
    for length in [4, 8] {
        let some = |_| name_at_random(&mut random, length);
        compare_in_orders((0..2_000).map(some).collect(), 4);
    }
}

/// Names that differ in the eighth character only, in the last three of eight, and by their length.
#[test]
fn names_alike_at_the_front() {
    let seven = |n| format!("SECTION{}", name(n, 1));
    compare_in_orders((0..36).map(seven).collect(), 5);
    let five = |n| format!("ALIKE{}", name(n, 3));
    compare_in_orders((0..2_000).map(five).collect(), 6);
    compare_in_orders((1..=8).map(|n| "A".repeat(n)).collect(), 7);
}

/// "Names are compared by their first eight characters", of up to 16: in the row too, where the first is the shorter or the longer.
#[test]
fn names_of_more_than_eight_characters() {
    for first in 8..=16 {
        for second in 8..=16 {
            for between in ["", "ABCDEFG", "ABCDEFGG", "ABCDEFGI"] {
                let mut names = vec!["A".into(), "ABCDEFGHIJKLMNOP"[..first].to_string()];
                names.extend((!between.is_empty()).then(|| between.into()));
                names.push("ABCDEFGHPONMLKJI"[..second].to_string());
                assert_eq!(compare(&names, ""), (5, names.len() as u32));
            }
        }
    }
}

/// The first, the last and one in the middle of the row again on the last line, with its line end and without.
#[test]
fn the_later_line_is_named() {
    let sorted = &most()[..500];
    for (_, names) in orders(sorted) {
        for place in [0, 250, 499] {
            let again = format!("$SEC {}", sorted[place]);
            for end in ["", "\n"] {
                let bytes = [template(&names, ""), again.clone().into(), end.into()].concat();
                assert_eq!(check(&bytes, b""), (5, 501));
            }
        }
    }
}

/// As many different names as there is room for, and as many sections.
#[test]
fn as_many_as_there_is_room_for() {
    compare_in_orders(most()[..3_700].to_vec(), 8);
    for (_, mut names) in orders(&most()) {
        assert_eq!(template(&names, "").len(), 32_760);
        assert_eq!(compare(&names, ""), (0, 0));
        let last = names.len() - 1;
        names[last] = names[0].clone();
        assert_eq!(compare(&names, ""), (5, 3_792));
    }
    assert_eq!(compare(&vec!["A".into(); 4_681], ""), (5, 2));
}
