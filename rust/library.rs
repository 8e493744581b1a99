//! A static library of a crate, as `tools/library` puts it into target/staticlib.

use std::env;
use std::path::{Path, PathBuf};

/// Links the library, or says that it isn't there.
pub fn link(name: &str) {
    println!("cargo::rerun-if-env-changed=STATION_LIB");
    let folder = match env::var_os("STATION_LIB") {
        Some(folder) => PathBuf::from(folder),
        None => Path::new(env!("CARGO_MANIFEST_DIR")).join("../target/staticlib"),
    };
    let library = folder.join(format!("lib{name}.a"));
    println!("cargo::rerun-if-changed={}", library.display());
    if !library.is_file() {
        println!(
            "cargo::error=the proved library isn't there: {}",
            library.display()
        );
        println!("cargo::error=run `tools/library {name}` in the repository's folder (with the Rattle kit's rt on the PATH)");
        println!(
            "cargo::error=or set STATION_LIB to a folder that holds lib{name}.a, and build again"
        );
        return;
    }
    println!("cargo::rustc-link-search=native={}", folder.display());
    println!("cargo::rustc-link-lib=static={name}");
}
