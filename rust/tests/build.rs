//! What the build says where libstation.a isn't there.

use std::path::Path;
use std::process::Command;

#[test]
fn a_build_without_the_library_says_what_to_run() {
    let folder = Path::new(env!("CARGO_TARGET_TMPDIR")).join("without");
    let output = Command::new(env!("CARGO"))
        .args(["build", "--offline", "--manifest-path"])
        .arg(Path::new(env!("CARGO_MANIFEST_DIR")).join("Cargo.toml"))
        .env("CARGO_TARGET_DIR", &folder)
        .env("STATION_LIB", "/nowhere")
        .output()
        .unwrap();
    let said = String::from_utf8_lossy(&output.stderr);
    assert!(!output.status.success());
    assert!(
        said.contains("the proved library isn't there: /nowhere/libstation.a"),
        "{said}"
    );
    assert!(said.contains("run `tools/library station`"), "{said}");
}
