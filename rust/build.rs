//! Links `liblyndon.a`, which `tools/build lyndon` writes.

use std::env;
use std::path::{absolute, PathBuf};
use std::process::exit;

const DIRECTORY: &str = "LYNDON_LIB_DIR";

fn main() {
    println!("cargo:rerun-if-changed=build.rs");
    println!("cargo:rerun-if-env-changed={DIRECTORY}");

    let directory =
        env::var_os(DIRECTORY).map_or_else(|| PathBuf::from("../target/staticlib"), PathBuf::from);
    let archive = directory.join("liblyndon.a");
    println!("cargo:rerun-if-changed={}", archive.display());

    let Ok(archive) = archive.canonicalize() else {
        // Cargo runs this in the package's directory, so that is where a relative path starts.
        let missing = absolute(&archive).unwrap_or(archive);
        eprintln!("{} is missing.", missing.display());
        eprintln!("Run `tools/build lyndon` at the repository's root, which writes target/staticlib/liblyndon.a,");
        eprintln!("or set {DIRECTORY} to the directory that holds liblyndon.a; a relative one starts at the directory");
        eprintln!("of this package.");
        exit(1);
    };
    let directory = archive.parent().expect("a file has a directory");
    println!("cargo:rustc-link-search=native={}", directory.display());
    println!("cargo:rustc-link-lib=static=lyndon");
    // For the test that links a C program.
    println!("cargo:rustc-env=LYNDON_ARCHIVE={}", archive.display());
}
