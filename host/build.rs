//! Links the digest's own archive, `libsha256.a` as the source tree builds it, beside the library.

use std::path::Path;

fn main() {
    let folder = Path::new(env!("CARGO_MANIFEST_DIR")).join("../target/staticlib");
    let archive = folder.join("libsha256.a");
    println!("cargo::rerun-if-changed={}", archive.display());
    println!("cargo::rustc-link-search=native={}", folder.display());
    println!("cargo::rustc-link-lib=static=sha256");
    if !archive.exists() {
        println!(
            "cargo::warning={} is not there: run tools/archive sha256",
            archive.display()
        );
    }
}
