//! What the package `station` says of a refused line, beside the proved parser: something of every line without a form, and
//! nothing of a line that has one.

use station::{Explanation, Refusal, Refused, Template};
use station_tests::generated::template;
use station_tests::line::write_line as parsed;
use station_tests::random::Random;
use station_tests::samples::{damage, LINES};

/// Whether the explanation finds a fault in a line just where the parser finds no form.
fn agrees(line: &[u8]) {
    let mut row = [0; 16];
    assert!(parsed(line, &mut row));
    let refused = Refused {
        refusal: Refusal::LineForm,
        line: 1,
    };
    let why = Explanation::of(&[line, b"\n"].concat(), refused);
    let shown = String::from_utf8_lossy(line);
    assert_eq!(why.is_some(), row[0] == 0, "{shown}\n{why:?}");
    if let Some(why) = why {
        assert!(
            (1..=line.len() + 1).contains(&why.column),
            "{shown}\n{why:?}"
        );
        assert!(why.column + why.width <= line.len() + 2, "{shown}\n{why:?}");
    }
}

#[test]
fn every_line_without_a_form_is_explained_and_no_other() {
    let mut random = Random::new(0x5eed_0011);
    for line in LINES {
        agrees(line.as_bytes());
        for _ in 0..2_000 {
            let mut bytes = line.as_bytes().to_vec();
            for _ in 0..=random.below(3) {
                damage(&mut random, &mut bytes);
            }
            let allowed = bytes.iter().all(|b| (0x20..=0x7e).contains(b));
            if allowed && bytes.len() <= 132 {
                agrees(&bytes);
            }
        }
    }
}

#[test]
fn every_refusal_of_a_template_is_explained() {
    let mut random = Random::new(0x5eed_0012);
    let mut seen = [0; 6];
    for n in 0..20_000 {
        let mut text = template(&mut random, 2 + n % 20);
        for _ in 0..random.below(4) {
            damage(&mut random, &mut text);
        }
        if random.below(8) == 0 {
            text.extend(b"\n$SEC A\n$SEC A");
        }
        if random.below(8) == 0 {
            let line = random.pick(&[
                "\n$ENDIF",
                "\n$ELSE\n$ELSE",
                "\n$IF 1",
                "\n$ET",
                "\n$BT 1\n$SEC Z9",
            ]);
            text.extend(line.bytes());
        }
        let Err(refused) = Template::check(&text) else {
            continue;
        };
        seen[refused.refusal.number() as usize] += 1;
        let shown = String::from_utf8_lossy(&text);
        assert!(
            Explanation::of(&text, refused).is_some(),
            "{refused}\n{shown}"
        );
    }
    assert!(seen[2..].iter().all(|&n| n > 100), "{seen:?}");
}
