//! Links the proved library, which `program/build library` has built.

use std::path::Path;

fn main() {
    let root = Path::new(env!("CARGO_MANIFEST_DIR")).join("../..");
    let place = root.join("target/staticlib");
    let library = place.join("libairpistil.a");
    println!("cargo::rerun-if-changed={}", library.display());
    if !library.exists() {
        println!(
            "cargo::error=target/staticlib/libairpistil.a is missing: run `program/build library` first"
        );
    }
    println!("cargo::rustc-link-search=native={}", place.display());
    println!("cargo::rustc-link-lib=static=airpistil");
}
