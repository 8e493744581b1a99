//! print, reads, reprint and the usage of `station`, by exit status and both streams.

mod common;

use common::{folder, names, root, station, Said};
use std::fs;
use std::path::PathBuf;

fn said(status: i32, out: &str, err: &str) -> Said {
    (status, out.to_owned(), err.to_owned())
}

fn activity() -> PathBuf {
    root().join("examples/activity")
}

const ZERO: &[u8] = b"$SEC A\nprinted {P1,3}\n$SETD IV1 0\nnot printed\n$SEC B\nb\n";

#[test]
fn print_gives_the_sheet_and_nothing_else() {
    let (status, out, err) = station(&activity(), &["print", "template", "store", "SHEET"]);
    let expected = fs::read_to_string(activity().join("expected")).unwrap();
    let closing = expected
        .rfind('\n')
        .and_then(|end| expected[..end].rfind('\n'));
    assert_eq!(out, expected[..=closing.unwrap()]);
    assert_eq!((status, err.as_str()), (0, ""));
}

#[test]
fn print_without_a_section_gives_all_of_them() {
    let folder = folder("all", &[("t", b"$SEC A\na\n$SEC B\nb\n"), ("s", b"")]);
    assert_eq!(
        station(&folder, &["print", "t", "s"]),
        said(0, "a\nb\n", "")
    );
    assert_eq!(
        station(&folder, &["print", "t", "s", ""]),
        said(0, "a\nb\n", "")
    );
    assert_eq!(
        station(&folder, &["print", "t", "s", "B"]),
        said(0, "b\n", "")
    );
}

#[test]
fn the_text_printed_before_a_refusal_stands() {
    let folder = folder("refused", &[("t", ZERO), ("s", b"")]);
    let err = "error[12]: The divisor is zero.\n --> t:3\n  |\n3 | $SETD IV1 0\n";
    assert_eq!(
        station(&folder, &["print", "t", "s", "A"]),
        said(1, "printed ???\n", err)
    );
}

#[test]
fn a_section_that_is_not_there_is_6() {
    let folder = folder("absent", &[("t", ZERO), ("s", b"")]);
    let err = "error[6]: The section asked for isn't there, or the name is empty and there is no $SEC.\n --> t\n";
    for call in ["print", "reads"] {
        assert_eq!(station(&folder, &[call, "t", "s", "C"]), said(1, "", err));
    }
    assert_eq!(
        station(&folder, &["reprint", "t", "C", "s", "s"]),
        said(1, "", err)
    );
}

#[test]
fn a_template_with_a_fault_is_refused_by_every_call_that_runs_it() {
    let folder = folder("fault", &[("t", b"x"), ("s", b"")]);
    let (_, _, checked) = station(&folder, &["check", "t"]);
    assert!(checked.starts_with("error[4]: ") && checked.contains(" --> t:1:1\n"));
    for call in [
        &["print", "t", "s"][..],
        &["reads", "t", "s"],
        &["reprint", "t", "", "s", "s"],
    ] {
        assert_eq!(station(&folder, call), said(1, "", &checked));
    }
}

#[test]
fn reads_lists_questions_as_a_template_writes_them_with_their_answers() {
    let template = b"$SEC A\n{P1,4}{P2.3,4}{P2.3.4,4}\n$SETDS 2\n{P2|RECCNT,2}{P2.3|ENTCNT,2}\n$SETE IV1 P9\nx\n";
    let folder = folder("reads", &[("t", template)]);
    let cells = b"1 1 0 0 S a b\n1 2 3 0 I -5\n2 2 3 4 F 0.5\n";
    fs::write(folder.join("text"), cells).unwrap();
    assert_eq!(
        station(&folder, &["store", "make", "text", "s"]),
        said(0, "", "")
    );
    let list = "P1 in datasource 1 = \"a b\"\n\
                P2.3 in datasource 1 = -5\n\
                P2.3.4 in datasource 1 = missing\n\
                P2|RECCNT in datasource 2 = 3\n\
                P2.3|ENTCNT in datasource 2 = 4\n\
                P9 in datasource 2 = missing\n";
    let err = "error[10]: A command's argument is missing.\n --> t:5\n  |\n5 | $SETE IV1 P9\n";
    assert_eq!(
        station(&folder, &["reads", "t", "s", "A"]),
        said(1, list, err)
    );
}

/// The example's template, its store as `before` and `after`.
fn edited(name: &str, edit: &[&str]) -> PathBuf {
    let [template, store] = ["template", "store"].map(|f| fs::read(activity().join(f)).unwrap());
    let folder = folder(
        name,
        &[("t", &template), ("before", &store), ("after", &store)],
    );
    let mut call = vec!["store", edit[0], "after"];
    call.extend(&edit[1..]);
    assert_eq!(station(&folder, &call), said(0, "", ""), "{edit:?}");
    folder
}

#[test]
fn a_put_of_a_parameter_that_is_not_on_the_list_is_promised() {
    let folder = edited("promised", &["put", "1", "13", "0", "0", "F", "0.5"]);
    let same = "The sheet is the same: 130 questions on the read list, all answered as before; 2238 bytes on 2 pages.\n";
    let (before, after) = (folder.join("before"), folder.join("after"));
    assert_ne!(fs::read(before).unwrap(), fs::read(after).unwrap());
    assert_eq!(
        station(&folder, &["reprint", "t", "SHEET", "before", "after"]),
        said(0, same, "")
    );
}

#[test]
fn a_put_of_a_parameter_that_is_on_the_list_is_refused_naming_it() {
    let one = "1 question on the read list answers otherwise: the sheet may be another.\n";
    let folder = edited("named", &["put", "1", "12", "0", "0", "F", "0.5"]);
    let changed = "P12 in datasource 1: was 0.482, is 0.5\n";
    assert_eq!(
        station(&folder, &["reprint", "t", "SHEET", "before", "after"]),
        said(1, changed, one)
    );
    // The same number of another kind is another answer.
    let folder = edited("kind", &["put", "1", "107", "1", "0", "F", "1.0"]);
    let changed = "P107.1 in datasource 1: was 1, is 1.0\n";
    assert_eq!(
        station(&folder, &["reprint", "t", "SHEET", "before", "after"]),
        said(1, changed, one)
    );
    let folder = edited("removed", &["remove", "1", "2", "0", "0"]);
    let changed = "P2 in datasource 1: was \"S-2231-07\", is missing\n";
    assert_eq!(
        station(&folder, &["reprint", "t", "SHEET", "before", "after"]),
        said(1, changed, one)
    );
    // A new record changes a highest number; no new cell was asked for.
    let folder = edited("record", &["put", "1", "101", "11", "0", "S", "Ra-226"]);
    let changed = "P101|RECCNT in datasource 1: was 10, is 11\n";
    assert_eq!(
        station(&folder, &["reprint", "t", "SHEET", "before", "after"]),
        said(1, changed, one)
    );
}

#[test]
fn a_refused_run_is_reprinted_as_it_was() {
    let folder = folder("again", &[("t", ZERO), ("s", b"")]);
    let same = "The sheet is the same: 1 question on the read list, all answered as before; 12 bytes on 1 page. Both runs are refused, line 3: 12: The divisor is zero.\n";
    assert_eq!(
        station(&folder, &["reprint", "t", "", "s", "s"]),
        said(0, same, "")
    );
}

#[test]
fn bad_files_are_one_message_that_names_the_file() {
    let long = vec![b'\n'; 32_769];
    let cells = vec![0x49; 65_537];
    let folder = folder(
        "bad",
        &[
            ("t", ZERO),
            ("s", b""),
            ("bad", b"no store"),
            ("long", &long),
            ("cells", &cells),
            ("bytes", &[0xff]),
        ],
    );
    fs::create_dir(folder.join("folder")).unwrap();
    let calls: [(&[&str], &str); 16] = [
        (&["print", "none", "s"], "none"),
        (&["print", "t", "none"], "none"),
        (&["print", "t", "bad"], "bad"),
        (&["print", "long", "s"], "long"),
        (&["print", "t", "cells"], "cells"),
        (&["print", "folder", "s"], "folder"),
        (&["print", "t", "folder"], "folder"),
        (&["check", "none"], "none"),
        (&["check", "long"], "long"),
        (&["reads", "t", "bad"], "bad"),
        (&["reprint", "t", "A", "s", "bad"], "bad"),
        (&["store", "show", "bad"], "bad"),
        (&["store", "ask", "bad", "P1"], "bad"),
        (
            &["store", "put", "bad", "1", "1", "0", "0", "I", "1"],
            "bad",
        ),
        (&["store", "remove", "none", "1", "1", "0", "0"], "none"),
        (&["store", "make", "bytes", "new"], "bytes"),
    ];
    let before = names(&folder);
    for (call, named) in calls {
        let (status, out, err) = station(&folder, call);
        assert_eq!((status, out.as_str()), (2, ""), "{call:?}");
        assert!(
            err.starts_with(&format!("station: {named}: ")),
            "{call:?}: {err}"
        );
        assert_eq!(err.lines().count(), 1, "{call:?}: {err}");
    }
    assert_eq!(names(&folder), before);
    assert_eq!(fs::read(folder.join("bad")).unwrap(), b"no store");
}

#[test]
fn every_call_has_a_usage_line() {
    let folder = folder("usage", &[]);
    let (status, help, err) = station(&folder, &["--help"]);
    assert_eq!((status, err.as_str()), (0, ""));
    let calls = help.lines().filter(|line| line.starts_with("  station "));
    for usage in calls.clone() {
        let words: Vec<&str> = usage.split_whitespace().skip(1).collect();
        let count = if words[0] == "store" { 2 } else { 1 };
        let call = &words[..count];
        let (status, out, err) = station(&folder, &[call, &["--help"]].concat());
        assert_eq!((status, err.as_str()), (0, ""));
        assert!(out.starts_with(&format!("usage: {}\n", usage.trim())));
        let short = format!("usage: {}\n", usage.trim());
        assert_eq!(station(&folder, call), said(2, "", &short));
    }
    assert_eq!(calls.count(), 9);
    for call in [&[][..], &["prnt"], &["store"], &["store", "x"]] {
        assert_eq!(station(&folder, call), said(2, "", &help));
    }
    let many = ["print", "a", "b", "c", "d"];
    assert_eq!(station(&folder, &many).0, 2);
}
