//! Links the proved library of this crate's name, which .ci/setup builds.

use std::path::Path;
use std::process;

fn main() {
    let library = env!("CARGO_PKG_NAME");
    let folder = Path::new(env!("CARGO_MANIFEST_DIR")).join("../../target/staticlib");
    let archive = folder.join(format!("lib{library}.a"));
    println!("cargo:rerun-if-changed=build.rs");
    println!("cargo:rerun-if-changed={}", archive.display());
    if !archive.exists() {
        eprintln!(
            "{} is missing: run ./cenduxari in the repository's root, which builds it.",
            archive.display()
        );
        process::exit(1);
    }
    println!("cargo:rustc-link-search=native={}", folder.display());
    println!("cargo:rustc-link-lib=static={library}");
    // For the tests that link it from C.
    println!("cargo:rustc-env=CENDUXARI_LIBRARY={}", archive.display());
}
