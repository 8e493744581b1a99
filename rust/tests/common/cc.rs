//! C programs over the static libraries, with the C compiler `cc`.

use std::path::{Path, PathBuf};
use std::process::{Command, Output};

pub fn root() -> PathBuf {
    Path::new(env!("CARGO_MANIFEST_DIR")).join("..")
}

/// The static library of a crate, `station` or `station_testing`.
pub fn library(name: &str) -> PathBuf {
    let folder = match std::env::var_os("STATION_LIB") {
        Some(folder) => PathBuf::from(folder),
        None => root().join("target/staticlib"),
    };
    folder.join(format!("lib{name}.a"))
}

/// Compiles a source as strictly as C11 goes, with the headers and the libraries of some crates, and runs it.
pub fn run(source: &Path, name: &str, crates: &[&str]) -> Output {
    let program = Path::new(env!("CARGO_TARGET_TMPDIR")).join(name);
    let mut cc = Command::new("cc");
    cc.args(["-std=c11", "-Wall", "-Wextra", "-Werror", "-pedantic"]);
    for name in crates {
        cc.arg("-I")
            .arg(root().join("crates").join(name).join("include"));
    }
    cc.arg(source).args(crates.iter().map(|name| library(name)));
    let compiled = cc.arg("-o").arg(&program).output();
    let compiled = compiled.expect("a C compiler, cc");
    assert!(
        compiled.status.success(),
        "{}",
        String::from_utf8_lossy(&compiled.stderr)
    );
    Command::new(program).output().unwrap()
}
