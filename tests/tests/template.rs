//! The line grammar and checks 2 to 6 beside the second interpreter: the number and the line named.

use station_tests::random::Random;
use station_tests::samples::{damage, LINES};
use station_tests::template::check;

/// A list of lines with a section before them, so that most pass check 4.
fn some_template(random: &mut Random) -> Vec<u8> {
    let mut lines: Vec<String> = vec!["$SEC S".into()];
    for _ in 0..random.below(12) {
        match random.below(8) {
            0 => lines.extend([
                "$IF IV1".into(),
                "x".into(),
                "$ELSE".into(),
                "y".into(),
                "$ENDIF".into(),
            ]),
            1 => lines.extend(["$BT 2".into(), "{R1,3}".into(), "$ET".into()]),
            2 => lines.push("z".repeat(random.pick(&[1, 130, 131, 132, 133]))),
            3 => lines.push(format!(
                "{}{{IV1,32}}",
                "w".repeat(random.pick(&[99, 100, 101]))
            )),
            4 => lines.push(format!(
                "$PH1 {}{{IV1,{}}}",
                "h".repeat(90),
                random.pick(&[1, 31, 32])
            )),
            _ => lines.push(random.pick(LINES).to_string()),
        }
    }
    if random.below(4) == 0 {
        lines.remove(0);
    }
    let mut bytes = lines.join("\n").into_bytes();
    if random.below(2) == 0 {
        bytes.push(b'\n');
    }
    bytes
}

fn same(template: &[u8], section: &[u8]) {
    let text = String::from_utf8_lossy(template);
    assert_eq!(
        check(template, section),
        second::check(template, section),
        "{text:?} {section:?}"
    );
}

/// Every line of the list by itself, behind a section.
#[test]
fn every_form_and_limit() {
    for line in LINES {
        same(format!("$SEC S\n{line}").as_bytes(), b"");
        same(
            format!("$SEC S\n$IF IV1\n$BT 2\n{line}\n$ET\n$ENDIF\n").as_bytes(),
            b"S",
        );
    }
}

/// All byte values at every position of sample lines.
#[test]
fn every_byte_of_a_line() {
    for line in LINES.iter().filter(|l| l.len() < 40) {
        let good = format!("$SEC S\n{line}\n").into_bytes();
        for at in 0..good.len() {
            for byte in 0..=255 {
                let mut bytes = good.clone();
                bytes[at] = byte;
                same(&bytes, b"");
            }
        }
    }
}

/// A million generated and damaged templates, with section names that are there and that aren't.
#[test]
fn templates_at_random() {
    let mut random = Random::new(0x7e3b);
    let names: [&[u8]; 7] = [b"", b"S", b"A", b"LONGNAME", b"LONGNAME\xff", b"s", b"\x00"];
    for round in 0..1_000_000 {
        let mut bytes = some_template(&mut random);
        for _ in 0..round % 3 {
            damage(&mut random, &mut bytes);
        }
        same(&bytes, random.pick(&names));
    }
}

/// "At most 10 are open", "At most 5 are open", together and one past, and open at the end.
#[test]
fn depths() {
    for tests in 8..=12 {
        for tables in 3..=7 {
            for closed in [true, false] {
                let mut lines = vec!["$SEC S"];
                lines.extend(vec!["$IF 1"; tests]);
                lines.extend(vec!["$BT 1"; tables]);
                if closed {
                    lines.extend(vec!["$ET"; tables]);
                    lines.extend(vec!["$ENDIF"; tests]);
                }
                same(lines.join("\n").as_bytes(), b"");
            }
        }
    }
}

/// "A template has at most 32,768 bytes", "at most 132" a line.
#[test]
fn lengths() {
    for length in [32_767, 32_768, 32_769, 40_000] {
        let mut bytes = b"$SEC S\n".to_vec();
        bytes.resize(length, b'\n');
        same(&bytes, b"");
        bytes[20_000..20_132].fill(b'x');
        same(&bytes, b"");
        bytes[20_132] = b'x';
        same(&bytes, b"");
    }
    same(b"", b"");
    same(b"\n", b"");
}
