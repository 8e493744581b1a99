//! Names of sections, in the orders in which check 5 may meet them.

use crate::random::Random;

const CHARACTERS: &[u8; 36] = b"0123456789ABCDEFGHIJKLMNOPQRSTUVWXYZ";

/// The n-th name of so many characters, and the first again behind the last.
pub fn name(n: usize, characters: u32) -> String {
    (0..characters)
        .rev()
        .map(|k| CHARACTERS[n / 36_usize.pow(k) % 36] as char)
        .collect()
}

pub fn name_at_random(random: &mut Random, characters: u32) -> String {
    name(random.word() as usize, characters)
}

/// The most different names that a template has room for, sorted: all of one and two characters, and 2,460 of three.
pub fn most() -> Vec<String> {
    let shortest = (1..=3).flat_map(|k| (0..36_usize.pow(k)).map(move |n| name(n, k)));
    let mut names: Vec<String> = shortest.take(3_792).collect();
    names.sort();
    names
}

/// Sorted names in five orders.
pub fn orders(sorted: &[String]) -> [(&'static str, Vec<String>); 5] {
    let last = sorted.len() - 1;
    let inward = |i: usize| match i % 2 {
        0 => sorted[i / 2].clone(),
        _ => sorted[last - i / 2].clone(),
    };
    let mut random = Random::new(7);
    let mut mixed = sorted.to_vec();
    for i in 1..mixed.len() {
        mixed.swap(i, random.below(i as u64 + 1) as usize);
    }
    [
        ("that count up", sorted.to_vec()),
        ("that count down", sorted.iter().rev().cloned().collect()),
        ("from both ends inward", (0..=last).map(inward).collect()),
        (
            "from the middle outward",
            (0..=last).rev().map(inward).collect(),
        ),
        ("in no order", mixed),
    ]
}

/// Sections of these names, with some lines behind each.
pub fn template(names: &[String], lines: &str) -> Vec<u8> {
    names
        .iter()
        .flat_map(|name| format!("$SEC {name}\n{lines}").into_bytes())
        .collect()
}
