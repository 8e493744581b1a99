//! The header and `examples/c`, with the C compiler `cc`.

#[path = "common/cc.rs"]
mod cc;

use cc::{root, run};
use std::fs;
use std::path::Path;

#[test]
fn the_example_prints_what_is_expected() {
    let folder = root().join("examples/c");
    let output = run(&folder.join("report.c"), "report", &["station"]);
    assert_eq!(
        String::from_utf8_lossy(&output.stdout),
        fs::read_to_string(folder.join("expected")).unwrap()
    );
    assert!(output.status.success());
}

#[test]
fn slices_of_length_0_may_be_null() {
    let source = Path::new(env!("CARGO_MANIFEST_DIR")).join("tests/nulls.c");
    let output = run(&source, "nulls", &["station"]);
    assert_eq!(String::from_utf8_lossy(&output.stdout), "");
    assert!(output.status.success());
}
