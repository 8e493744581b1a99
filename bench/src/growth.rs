//! Reports that grow in one thing at a time, so that instructions can be counted against it.

use crate::lent::Lent;
use second::Value;
use station_tests::store::cell;
use std::fmt::Write;

/// What may grow, and what it is counted in.
pub const KINDS: [&str; 7] = [
    "lines", "cells", "bytes", "sections", "headings", "jumps", "shared",
];

/// A template and a store with so many of a kind.
fn grown(kind: &str, n: usize) -> (String, Vec<u8>) {
    let one = cell([1, 1, 0, 0], &Value::Integer(7));
    let mut template = String::from("$SEC A\n");
    match kind {
        // executed lines, but for the two that open the section and the table
        "lines" => _ = write!(template, "$BT {}\n$SETA IV1 1\n$ET\n", n / 2),
        "cells" => {
            template += "{P1,3}\n";
            let others = (1..n).map(|k| [2 + (k / 999) as u16, 1, (k % 999) as u16, 0]);
            let others = others.flat_map(|key| cell(key, &Value::Integer(7)));
            return (template, one.into_iter().chain(others).collect());
        }
        // bytes of a section that isn't executed
        "bytes" => template += &("x\n$SEC B\n".to_owned() + &line(100).repeat(n / 100)),
        // names in no order
        "sections" => {
            for k in 0..n {
                let _ = writeln!(template, "$SEC S{}", k * 7_919 % 10_007);
            }
        }
        // headings on each of 100 pages
        "headings" => {
            for k in 1..=n {
                let _ = writeln!(template, "$PH{k} heading {{PAGENUM,3}}");
            }
            template += "$BT 100\nx\n$NP\n$ET\n";
        }
        // failing tests over 32,000 bytes
        "jumps" => {
            _ = write!(
                template,
                "$BT {n}\n$IF 0\n{}$ENDIF\n$ET\n",
                line(100).repeat(320)
            )
        }
        // failing tests in pairs over 16,000 bytes each, which replace each other where they are remembered
        "shared" => {
            let test = "$IF 0\n".to_owned() + &line(64).repeat(249) + &line(51) + "$ENDIF\n";
            assert_eq!(test.len() % 64, 0);
            let _ = write!(template, "$BT {}\n{test}{test}$ET\n", n / 2);
        }
        _ => panic!("no kind {kind}: one of {KINDS:?}"),
    }
    (template, one)
}

/// A line of so many bytes, its end included.
fn line(bytes: usize) -> String {
    "x".repeat(bytes - 1) + "\n"
}

/// One report of section A by ours, which must be the second interpreter's.
pub fn run(kind: &str, n: usize) {
    let (template, store) = grown(kind, n);
    let (mut a, mut b) = (Lent::new(), Lent::new());
    let end = a.ours_of(template.as_bytes(), b"A", &store);
    assert_eq!(end, b.theirs_of(template.as_bytes(), b"A", &store));
    assert!(a.agrees(&b) && end.number == 0, "{kind} {n}: {end:?}");
}
