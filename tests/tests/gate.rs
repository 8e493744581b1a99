//! What the gate, .ci/run, takes and refuses: made-up logs, by programs named rt and cargo at the front of the PATH, in a folder
//! that has the gate and no crates.

use std::fs;
use std::os::unix::fs::PermissionsExt;
use std::path::Path;
use std::process::Command;

/// What rt writes where all is proved.
const PROVED: &str = "logic=proved functions=2 logic-built=trusted libraries-built=trusted statements=trusted
rt: ok; handles allowed: none; must-fail edits: 1 refused; every proof and must-fail edit was done in this run
3 passed, 0 failed
";

/// What rt does: it prints its log and leaves the program, and makes a static library in the folder of its crate.
const RT: &str = "case $1 in
ci) cat \"$0.log\"; mkdir -p crates/sheet/out; : >crates/sheet/out/sheet ;;
lib) mkdir -p out; : >\"out/lib$(basename \"$PWD\").a\" ;;
esac";

const CARGO: &str = "cat \"$0.log\"; [ -z \"$STATION_LIB$RUSTFLAGS\" ]";

/// What cargo writes for a package with one file of tests and an example in its docs.
const TESTED: &str = "     Running unittests src/lib.rs (one)
test result: ok. 0 passed; 0 failed; 0 ignored; 0 measured; 0 filtered out; finished in 0.00s
     Running tests/store.rs (two)
test result: ok. 4 passed; 0 failed; 0 ignored; 0 measured; 0 filtered out; finished in 0.00s
   Doc-tests station
test result: ok. 1 passed; 0 failed; 0 ignored; 0 measured; 0 filtered out; finished in 0.00s
";

fn program(path: &Path, does: &str) {
    fs::write(path, format!("#!/bin/sh\n{does}\n")).unwrap();
    fs::set_permissions(path, fs::Permissions::from_mode(0o755)).unwrap();
}

/// Whether the gate passes, and its last line; the programs print the logs, and cargo says where something else would be linked.
fn gate(name: &str, rt: &str, cargo: &str) -> (bool, String) {
    gate_over(name, rt, cargo, RT)
}

fn gate_over(name: &str, rt: &str, cargo: &str, does: &str) -> (bool, String) {
    let root = Path::new(env!("CARGO_MANIFEST_DIR")).join("..");
    let folder = Path::new(env!("CARGO_TARGET_TMPDIR")).join(format!("gate {name}"));
    let _ = fs::remove_dir_all(&folder);
    for within in [
        "bin",
        ".ci",
        "tools",
        "crates/station_c",
        "crates/station_testing_c",
    ] {
        fs::create_dir_all(folder.join(within)).unwrap();
    }
    for script in [".ci/run", "tools/library"] {
        fs::copy(root.join(script), folder.join(script)).unwrap();
    }
    for (made, log, does) in [("rt", rt, does), ("cargo", cargo, CARGO)] {
        let path = folder.join("bin").join(made);
        fs::write(path.with_extension("log"), log).unwrap();
        program(&path, does);
    }
    let path = format!(
        "{}:{}",
        folder.join("bin").display(),
        std::env::var("PATH").unwrap()
    );
    let output = Command::new(folder.join(".ci/run"))
        .env("PATH", path)
        .env("STATION_LIB", "/nowhere")
        .env("RUSTFLAGS", "-L /nowhere")
        .output()
        .unwrap();
    let said = String::from_utf8_lossy(&output.stdout);
    let last = said.lines().last().unwrap().to_owned();
    (output.status.success(), last)
}

fn refused() -> (bool, String) {
    (false, "0 passed, 1 failed".to_owned())
}

#[test]
fn all_proved_and_every_test_passed() {
    let passed = (true, "18 passed, 0 failed".to_owned());
    assert_eq!(gate("passed", PROVED, TESTED), passed);
}

#[test]
fn logs_that_are_refused() {
    let rt = |from, to| (PROVED.replacen(from, to, 1), TESTED.to_owned());
    let cargo = |from, to| (PROVED.to_owned(), TESTED.replacen(from, to, 1));
    let logs = [
        ("cache", rt("logic-built", "cache=trusted logic-built")),
        (
            "incremental",
            rt("logic-built", "incremental=trusted logic-built"),
        ),
        ("edit", rt("3 passed, 0 failed", "2 passed, 1 failed")),
        ("bad edit", rt("1 refused;", "1 refused, 1 bad;")),
        ("not ok", rt("rt: ok;", "rt: FAILED:")),
        ("none proved", rt("3 passed", "0 passed")),
        ("no end", rt("3 passed, 0 failed\n", "")),
        ("failed", cargo("4 passed; 0 failed", "3 passed; 1 failed")),
        ("no test of a file", cargo("4 passed", "0 passed")),
        ("no example", cargo("1 passed", "0 passed")),
        (
            "ignored",
            cargo(
                "4 passed; 0 failed; 0 ignored",
                "3 passed; 0 failed; 1 ignored",
            ),
        ),
        (
            "ignored example",
            cargo(
                "1 passed; 0 failed; 0 ignored",
                "1 passed; 0 failed; 1 ignored",
            ),
        ),
        ("left out", cargo("0 filtered", "1 filtered")),
        ("nothing", (PROVED.to_owned(), String::new())),
    ];
    for (name, (rt, cargo)) in logs {
        assert_eq!(gate(name, &rt, &cargo), refused(), "{name}");
    }
}

#[test]
fn what_rt_did_not_make_is_refused() {
    let lacking = [
        ("no program", "[ $1 != ci ] || rm crates/sheet/out/sheet"),
        ("no station", "rm -f out/libstation_c.a"),
        ("no station_testing", "rm -f out/libstation_testing_c.a"),
        ("unproved", "[ $1 != lib ]"),
        ("failed ci", "[ $1 != ci ]"),
    ];
    for (name, then) in lacking {
        let does = format!("{RT}\n{then}");
        assert_eq!(gate_over(name, PROVED, TESTED, &does), refused(), "{name}");
    }
}
