//! Where a run starts, and where a failed test, an executed `$ELSE` and a skipped table go on, beside the second interpreter.
//!
//! Neither is public there, so it is shown by runs: a line that is refused whenever it is executed stands behind each line
//! that is asked about, and the line that the second interpreter names says where its run went.

use station_tests::generated::{damage, section, template};
use station_tests::random::Random;
use station_tests::template::{check_run, skip};
use std::ops::Range;

/// Refused with 10 where it is executed, over an empty store.
const REFUSED: &str = "$NP P1";

/// The line that the second interpreter's run ends at, refused with 10; `None` where the template is too long for the lines put
/// in.
fn stopped_at(template: &[u8], section: &[u8]) -> Option<usize> {
    if template.len() > second::template::TEMPLATE_LIMIT {
        return None;
    }
    let mut reads = [second::Question::default(); 40];
    let end = second::report(template, section, b"", 0, &mut [], &mut reads);
    let text = String::from_utf8_lossy(template);
    assert_eq!((end.number, end.text_bytes), (10, 0), "{text}");
    Some(end.line as usize)
}

/// The lines of a template that is accepted.
fn lines(template: &[u8]) -> Vec<&str> {
    let text = std::str::from_utf8(template).unwrap();
    text.lines().collect()
}

fn word(line: &str) -> &str {
    line.split(' ').next().unwrap()
}

// ---- the start of a run

/// The line that the second interpreter's run starts with: the one before the first that is refused, with one behind each
/// `$SEC`.
fn second_start(template: &[u8], section: &[u8]) -> Option<u32> {
    let mut probe = String::new();
    let mut origins = Vec::new();
    for (at, line) in lines(template).into_iter().enumerate() {
        probe += &format!("{line}\n");
        origins.push(at + 1);
        if word(line) == "$SEC" {
            probe += &format!("{REFUSED}\n");
            origins.push(at + 1);
        }
    }
    let line = stopped_at(probe.as_bytes(), section)?;
    Some(origins[line - 1] as u32)
}

#[test]
fn a_run_starts_where_the_second_interpreters_does() {
    let mut random = Random::new(0x57a7);
    let (mut started, mut refused) = (0, 0);
    for round in 0..40_000 {
        let mut bytes = template(&mut random, 2 + round % 30);
        let name = section(&mut random, &bytes);
        if round % 4 == 0 {
            damage(&mut random, &mut bytes);
        }
        let (number, line) = second::check(&bytes, &name);
        let start = match number {
            0 => second_start(&bytes, &name).unwrap(),
            _ => 0,
        };
        let text = String::from_utf8_lossy(&bytes);
        assert_eq!(
            check_run(&bytes, &name),
            (number, line, start),
            "{text} {name:?}"
        );
        started += u32::from(start > 1);
        refused += u32::from(start == 0);
    }
    assert!(started > 5_000 && refused > 1_000, "{started} {refused}");
}

#[test]
fn a_run_starts_at_the_first_section_for_the_empty_name() {
    let text = b"$REM a\n$REM b\n$SEC A\nx\n$SEC B\n$SEC C";
    let starts = [("", 3), ("A", 3), ("B", 5), ("C", 6)];
    for (name, start) in starts {
        assert_eq!(check_run(text, name.as_bytes()), (0, 0, start), "{name}");
    }
    assert_eq!(check_run(text, b"D"), (6, 0, 0));
    assert_eq!(check_run(b"$SEC A\n$ET\n", b"A"), (4, 2, 0));
}

// ---- jumps

/// What is open before a line, each as lines that lead a run inside.
fn opened(before: &[&str]) -> Vec<&'static str> {
    let mut open = Vec::new();
    for line in before {
        match word(line) {
            "$ELSE" => *open.last_mut().unwrap() = "$IF 0\n$ELSE\n",
            "$ENDIF" | "$ET" => drop(open.pop()),
            "$BT" => open.push("$BT 1\n"),
            word if word.starts_with("$IF") => open.push("$IF 1\n"),
            _ => {}
        }
    }
    open
}

/// The code of a line's jump, and lines that make the jump from inside of what is open before it.
fn jump(line: &str) -> Option<(u32, &'static str)> {
    match word(line) {
        "$ELSE" => Some((1, "$ELSE\n")),
        "$BT" => Some((2, "$BT 0\n")),
        word if word.starts_with("$IF") => Some((0, "$IF 0\n")),
        _ => None,
    }
}

/// How many lines the second interpreter passes over behind the line at `at`: each line behind it is followed by one that is
/// refused, and what is executed before it only leads to it.
fn second_skip(lines: &[&str], at: usize, jumping: &str) -> Option<usize> {
    let mut probe = String::from("$SEC PROBE\n");
    probe.extend(opened(&lines[..at]));
    probe += jumping;
    let before = probe.lines().count();
    probe += &format!("{REFUSED}\n");
    for line in &lines[at + 1..] {
        probe += &format!("{line}\n{REFUSED}\n");
    }
    let line = stopped_at(probe.as_bytes(), b"PROBE")?;
    let behind = line - before - 1;
    assert_eq!(behind % 2, 0, "{probe}");
    Some(behind / 2)
}

/// All jumps of an accepted template; how many of each code there are goes to `counts`.
fn compare(template: &[u8], counts: &mut [u32; 3]) {
    let lines = lines(template);
    let starts = starts(&lines);
    for (at, line) in lines.iter().enumerate() {
        let Some((code, jumping)) = jump(line) else {
            continue;
        };
        let Some(passed) = second_skip(&lines, at, jumping) else {
            continue;
        };
        let Range { start, end } = starts[at + 1]..starts[at + 1 + passed];
        let end = end.min(template.len());
        let rest = &template[start..];
        let text = String::from_utf8_lossy(rest);
        assert_eq!(skip(rest, code), (end - start, passed as u32), "{text}");
        counts[code as usize] += 1;
    }
}

/// Where each line starts, and where one behind the last would, were each to have a line end.
fn starts(lines: &[&str]) -> Vec<usize> {
    let mut starts = vec![0];
    for line in lines {
        starts.push(starts[starts.len() - 1] + line.len() + 1);
    }
    starts
}

#[test]
fn jumps_go_on_where_the_second_interpreters_do() {
    let mut random = Random::new(0x0ff5);
    let mut counts = [0; 3];
    for round in 0..10_000 {
        let size = if round % 100 == 0 {
            200
        } else {
            2 + round % 40
        };
        let bytes = template(&mut random, size);
        if second::check(&bytes, b"").0 == 0 {
            compare(&bytes, &mut counts);
        }
    }
    assert!(counts.iter().all(|&count| count > 3_000), "{counts:?}");
}

#[test]
fn jumps_of_the_deepest_nesting() {
    for (tests, tables) in [(10, 5), (10, 0), (0, 5), (1, 1)] {
        let mut lines = vec!["$SEC A".to_owned()];
        lines.extend((0..tests).map(|n| format!("$IFEQ {n} 1")));
        lines.extend((0..tables).map(|n| format!("$BT {n}")));
        lines.extend(vec!["$ET".into(); tables]);
        for n in 0..tests {
            if n % 3 != 0 {
                lines.extend(["$ELSE".into(), "$BT 2".into(), "x".into(), "$ET 1".into()]);
            }
            lines.push("$ENDIF".into());
        }
        let mut counts = [0; 3];
        compare(lines.join("\n").as_bytes(), &mut counts);
        assert_eq!(counts[0], tests as u32);
        assert!(counts[2] >= tables as u32);
    }
}

/// What no accepted template has: no match, lines without a form, a part that is too long.
#[test]
fn a_part_of_any_bytes() {
    let codes = |rest: &str| [0, 1, 2].map(|code| skip(rest.as_bytes(), code));
    assert_eq!(codes(""), [(0, 0); 3]);
    assert_eq!(codes("x"), [(1, 1); 3]);
    assert_eq!(codes("x\n\n\n"), [(4, 3); 3]);
    assert_eq!(codes("$ELSE\n$ENDIF\n$ET\ny"), [(6, 1), (13, 2), (17, 3)]);
    assert_eq!(
        codes("$ET\n$IF 1\n$ELSE\n$ENDIF"),
        [(22, 4), (22, 4), (4, 1)]
    );
    assert_eq!(skip(b"$ET\nx", u32::MAX), (4, 1));
    let most = second::template::TEMPLATE_LIMIT;
    assert_eq!(skip(&vec![b'\n'; most], 0), (most, most as u32));
    assert_eq!(skip(&vec![b'\n'; most + 1], 0), (0, 0));
}
