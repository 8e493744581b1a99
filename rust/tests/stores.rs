//! `station store`, by exit status, both streams and the files left.

mod common;

use common::{folder, names, root, station, Said};
use std::fs::{self, File};
use std::io::Read;
use std::path::Path;

fn said(status: i32, out: &str, err: &str) -> Said {
    (status, out.to_owned(), err.to_owned())
}

fn bytes(folder: &Path, name: &str) -> Vec<u8> {
    fs::read(folder.join(name)).unwrap()
}

/// Strings with spaces at both ends, an empty one, numbers at their limits, in the order of keys.
const TEXT: &str = "1 1 0 0 S \n\
                    1 1 0 999 S   a  # b  \n\
                    1 1 999 0 S # no remark\n\
                    1 65535 0 0 I -2000000000\n\
                    2 1 0 0 F -0.000001\n\
                    2 2 0 0 F 2000000000.0\n\
                    35 65535 999 999 F -12.5\n";

#[test]
fn make_of_what_show_prints_is_the_same_store() {
    let folder = folder("roundtrip", &[("text", TEXT.as_bytes())]);
    assert_eq!(
        station(&folder, &["store", "make", "text", "store"]),
        said(0, "", "")
    );
    assert_eq!(
        station(&folder, &["store", "show", "store"]),
        said(0, TEXT, "")
    );
    for store in ["examples/activity/store", "crates/sheet/data/store"] {
        fs::copy(root().join(store), folder.join("first")).unwrap();
        let (_, text, _) = station(&folder, &["store", "show", "first"]);
        fs::write(folder.join("text"), text).unwrap();
        assert_eq!(
            station(&folder, &["store", "make", "text", "second"]),
            said(0, "", "")
        );
        assert_eq!(bytes(&folder, "second"), bytes(&folder, "first"));
    }
    fs::write(folder.join("empty"), "").unwrap();
    assert_eq!(
        station(&folder, &["store", "show", "empty"]),
        said(0, "", "")
    );
}

#[test]
fn the_shipped_store_is_made_from_its_text() {
    let activity = root().join("examples/activity");
    let folder = folder("shipped", &[("text", &bytes(&activity, "store.txt"))]);
    assert_eq!(
        station(&folder, &["store", "make", "text", "store"]),
        said(0, "", "")
    );
    assert_eq!(bytes(&folder, "store"), bytes(&activity, "store"));
}

#[test]
fn make_takes_remarks_any_order_and_line_ends_of_either_kind() {
    let text = b"# remark\r\n\r\n1 2 0 0 I 2\r\n1 1 0 0 F 3\n1 2 0 0 S later";
    let folder = folder("order", &[("text", text)]);
    assert_eq!(
        station(&folder, &["store", "make", "text", "store"]),
        said(0, "", "")
    );
    let shown = "1 1 0 0 F 3.0\n1 2 0 0 S later\n";
    assert_eq!(
        station(&folder, &["store", "show", "store"]),
        said(0, shown, "")
    );
}

#[test]
fn make_names_the_line_that_is_no_cell() {
    let rows = [
        (
            "1 1 0 0 I",
            "datasource, parameter, record, entry, kind, value are due",
        ),
        ("0 1 0 0 I 1", "datasource 0: it is a number, 1 to 35"),
        ("36 1 0 0 I 1", "datasource 36: it is a number, 1 to 35"),
        (
            "1 65536 0 0 I 1",
            "parameter 65536: it is a number, 1 to 65535",
        ),
        ("1 1 1000 0 I 1", "record 1000: it is a number, 0 to 999"),
        ("1 1 0 -1 I 1", "entry -1: it is a number, 0 to 999"),
        ("1  1 0 0 I 1", "parameter : it is a number, 1 to 65535"),
        ("1 1 0 0 i 1", "kind i: it is I, F or S"),
        (
            "1 1 0 0 I 2000000001",
            "integer 2000000001: it is within ±2,000,000,000",
        ),
        ("1 1 0 0 I 1.5", "integer 1.5: it is within ±2,000,000,000"),
        ("1 1 0 0 I +1", "integer +1: it is within ±2,000,000,000"),
        (
            "1 1 0 0 F 1.",
            "decimal 1.: it is within ±2,000,000,000, with 1 to 6 places",
        ),
        (
            "1 1 0 0 F 1.1234567",
            "decimal 1.1234567: it is within ±2,000,000,000, with 1 to 6 places",
        ),
        (
            "1 1 0 0 F 2000000000.000001",
            "decimal 2000000000.000001: it is within ±2,000,000,000, with 1 to 6 places",
        ),
        (
            "1 1 0 0 S seventeen bytes a",
            "string \"seventeen bytes a\": it has 0 to 16 of the bytes 0x20–0x7E",
        ),
        (
            "1 1 0 0 S \u{b5}Sv/h",
            "string \"\u{b5}Sv/h\": it has 0 to 16 of the bytes 0x20–0x7E",
        ),
    ];
    let folder = folder("no cell", &[("store", b"old")]);
    for (line, why) in rows {
        fs::write(folder.join("text"), format!("1 1 0 0 I 1\n\n{line}\n")).unwrap();
        let err = format!("station: text:3: {why}\n");
        assert_eq!(
            station(&folder, &["store", "make", "text", "store"]),
            said(2, "", &err)
        );
        assert_eq!(bytes(&folder, "store"), b"old");
    }
    assert_eq!(names(&folder), ["store", "text"]);
}

#[test]
fn a_store_that_is_full_is_16() {
    let cells = (0..5_462).map(|n| format!("{} {} 0 0 I 7\n", 1 + n / 1_000, 1 + n % 1_000));
    let text: Vec<String> = cells.collect();
    let folder = folder("full", &[("text", text.concat().as_bytes())]);
    let err = "station: text:5462: A put would pass the buffer or 65,536 bytes.\n";
    assert_eq!(
        station(&folder, &["store", "make", "text", "store"]),
        said(2, "", err)
    );
    fs::write(folder.join("text"), text[..5_461].concat()).unwrap();
    assert_eq!(
        station(&folder, &["store", "make", "text", "store"]),
        said(0, "", "")
    );
    let put = ["store", "put", "store", "35", "1", "0", "0", "I", "1"];
    let err = "error[16]: A put would pass the buffer or 65,536 bytes.\n";
    assert_eq!(station(&folder, &put), said(1, "", err));
    assert_eq!(bytes(&folder, "store").len(), 65_532);
}

#[test]
fn a_store_of_exactly_65_536_bytes_and_a_cell_more() {
    let cells = (0..4_097).map(|n| format!("{} {} 0 0 F {n}.5\n", 1 + n / 1_000, 1 + n % 1_000));
    let text: Vec<String> = cells.collect();
    let template = b"$SEC A\n{P1,6.1}\n$SETDS 5\n{P96,6.1}{P97,4}{P98|RECCNT,2}\n";
    let folder = folder(
        "exactly",
        &[
            ("t", template),
            ("text", text[..4_096].concat().as_bytes()),
            ("more", text.concat().as_bytes()),
        ],
    );
    let run = |words: &[&str]| station(&folder, words);
    let full = "A put would pass the buffer or 65,536 bytes.\n";
    let more = format!("station: more:4097: {full}");
    assert_eq!(run(&["store", "make", "more", "s"]), said(2, "", &more));
    assert_eq!(run(&["store", "make", "text", "s"]), said(0, "", ""));
    let made = bytes(&folder, "s");
    assert_eq!(made.len(), 65_536);
    fs::write(folder.join("same"), &made).unwrap();
    // A file that is one cell longer.
    let cell = [0x46, 5, 0, 97, 0, 0, 0, 0, 0, 0, 0, 0, 0, 0, 0, 1];
    fs::write(folder.join("long"), [&made[..], &cell].concat()).unwrap();
    let long = "station: long: too long: a store has at most 65536 bytes\n";

    let shown = text[..4_096].concat();
    assert_eq!(run(&["store", "show", "s"]), said(0, &shown, ""));
    assert_eq!(run(&["store", "show", "long"]), said(2, "", long));
    let ask = |store| run(&["store", "ask", store, "P96 in datasource 5"]);
    assert_eq!(ask("s"), said(0, "4095.5\n", ""));
    assert_eq!(ask("long"), said(2, "", long));
    let sheet = "   0.5\n4095.5???  0\n";
    assert_eq!(run(&["print", "t", "s"]), said(0, sheet, ""));
    assert_eq!(run(&["print", "t", "long"]), said(2, "", long));
    let reads = "P1 in datasource 1 = 0.5\nP96 in datasource 5 = 4095.5\n\
                 P97 in datasource 5 = missing\nP98|RECCNT in datasource 5 = 0\n";
    assert_eq!(run(&["reads", "t", "s"]), said(0, reads, ""));
    let same = "The sheet is the same: 4 questions on the read list, all answered as before; 20 bytes on 1 page.\n";
    assert_eq!(run(&["reprint", "t", "", "s", "same"]), said(0, same, ""));

    let put = |key: &str, kind, value| {
        let key: Vec<&str> = key.split(' ').collect();
        run(&[&["store", "put", "s"], &key[..], &[kind, value]].concat())
    };
    let refused = said(1, "", &format!("error[16]: {full}"));
    assert_eq!(put("5 97 0 0", "F", "1.0"), refused);
    assert_eq!(put("5 97 0 0", "I", "1"), refused);
    assert_eq!(put("5 96 0 0", "S", "longer"), refused);
    assert_eq!(bytes(&folder, "s"), made);
    assert_eq!(put("5 96 0 0", "F", "1.0"), said(0, "", ""));
    assert_eq!(bytes(&folder, "s").len(), 65_536);
    let remove = ["store", "remove", "s", "1", "1", "0", "0"];
    assert_eq!(run(&remove), said(0, "", ""));
    assert_eq!(bytes(&folder, "s").len(), 65_520);
    assert_eq!(put("5 97 0 0", "F", "1.0"), said(0, "", ""));
    assert_eq!(bytes(&folder, "s").len(), 65_536);
}

#[test]
fn questions_are_written_as_in_a_template() {
    let folder = folder("ask", &[("text", TEXT.as_bytes())]);
    assert_eq!(
        station(&folder, &["store", "make", "text", "s"]),
        said(0, "", "")
    );
    let ask = |question: &str| {
        let words: Vec<&str> = ["store", "ask", "s"]
            .into_iter()
            .chain(question.split(' '))
            .collect();
        station(&folder, &words)
    };
    let answers = [
        ("P1", "\"\""),
        ("P1 in datasource 2", "-0.000001"),
        ("P1.0.999", "\"  a  # b  \""),
        ("P65535", "-2000000000"),
        ("P65535.999.999 in datasource 35", "-12.5"),
        ("P7", "missing"),
        ("P1|RECCNT", "999"),
        ("P1.0|ENTCNT in datasource 1", "999"),
        ("P7|RECCNT", "0"),
    ];
    for (question, answer) in answers {
        assert_eq!(
            ask(question),
            said(0, &format!("{answer}\n"), ""),
            "{question}"
        );
    }
    // One argument will do too.
    let whole = station(&folder, &["store", "ask", "s", "P1 in datasource 2"]);
    assert_eq!(whole, said(0, "-0.000001\n", ""));
    let limit = "error[15]: An edit's or question's key, kind, unused number or value breaks a limit above.\n";
    for question in ["P0", "P1.1000", "P1 in datasource 36"] {
        assert_eq!(ask(question), said(1, "", limit), "{question}");
    }
    for question in [
        "p1",
        "P",
        "P1.",
        "P1.1.1.1",
        "P1|ABS",
        "P1.1|RECCNT",
        "P1|ENTCNT",
        "P+1",
        "P1 in 2",
        "P65536",
    ] {
        let (status, out, err) = ask(question);
        assert_eq!((status, out.as_str()), (2, ""), "{question}");
        assert!(
            err.starts_with(&format!("station: {question}: not a question")),
            "{err}"
        );
    }
}

#[test]
fn an_edit_is_a_new_file_with_the_old_name() {
    let folder = folder("edit", &[("text", TEXT.as_bytes())]);
    assert_eq!(
        station(&folder, &["store", "make", "text", "s"]),
        said(0, "", "")
    );
    let old = bytes(&folder, "s");
    let mut open = File::open(folder.join("s")).unwrap();
    let put = ["store", "put", "s", "1", "2", "3", "0", "S", "two  words"];
    assert_eq!(station(&folder, &put), said(0, "", ""));
    let asked = station(&folder, &["store", "ask", "s", "P2.3"]);
    assert_eq!(asked, said(0, "\"two  words\"\n", ""));
    // Who had the store open still reads the old one, whole.
    let mut still = Vec::new();
    open.read_to_end(&mut still).unwrap();
    assert_eq!(still, old);
    let remove = ["store", "remove", "s", "1", "2", "3", "0"];
    assert_eq!(station(&folder, &remove), said(0, "", ""));
    assert_eq!(bytes(&folder, "s"), old);
    let err = "error[17]: The key to remove has no cell.\n";
    assert_eq!(station(&folder, &remove), said(1, "", err));
    let wrong = ["store", "put", "s", "1", "2", "3", "0", "I", "x"];
    let err = "station: integer x: it is within ±2,000,000,000\n";
    assert_eq!(station(&folder, &wrong), said(2, "", err));
    assert_eq!(bytes(&folder, "s"), old);
    assert_eq!(names(&folder), ["s", "text"]);
}

#[cfg(unix)]
#[test]
fn a_link_to_a_store_stays_a_link() {
    let folder = folder("link", &[("s", b"")]);
    std::os::unix::fs::symlink("s", folder.join("l")).unwrap();
    let put = ["store", "put", "l", "1", "1", "0", "0", "I", "1"];
    let ended = station(&folder, &put);
    let linked = folder.join("l").is_symlink();
    // The next rt ci takes no checkout with a link in it.
    fs::remove_file(folder.join("l")).unwrap();
    assert_eq!(ended, said(0, "", ""));
    assert!(linked);
    assert_eq!(bytes(&folder, "s").len(), 12);
}

#[test]
fn only_a_file_that_may_be_written_is_replaced() {
    let folder = folder("replaced", &[("text", b""), ("s", b"")]);
    fs::create_dir(folder.join("folder")).unwrap();
    let mut permissions = fs::metadata(folder.join("s")).unwrap().permissions();
    permissions.set_readonly(true);
    fs::set_permissions(folder.join("s"), permissions).unwrap();
    let make = |target| station(&folder, &["store", "make", "text", target]);
    let put = station(
        &folder,
        &["store", "put", "s", "1", "1", "0", "0", "I", "1"],
    );
    let denied = "station: s: permission denied\n";
    assert_eq!(put, said(2, "", denied));
    assert_eq!(make("s"), said(2, "", denied));
    assert_eq!(
        make("folder"),
        said(2, "", "station: folder: not a file that can be replaced\n")
    );
    assert_eq!(names(&folder), ["folder", "s", "text"]);
    assert_eq!(bytes(&folder, "s"), b"");
}

#[test]
fn a_folder_that_is_not_there_is_a_message() {
    let folder = folder("nowhere", &[("text", b"")]);
    let (status, out, err) = station(&folder, &["store", "make", "text", "no/store"]);
    assert_eq!((status, out.as_str()), (2, ""));
    assert!(err.starts_with("station: no/store: "), "{err}");
}
