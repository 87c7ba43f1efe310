//! Links the archive: `libpingvratha.a` from the folder that PINGVRATHA_FOLDER names, or else
//! `libledger.a` as the source tree builds it.

use std::env;
use std::path::{Path, PathBuf};

fn main() {
    let (folder, name) = match env::var_os("PINGVRATHA_FOLDER") {
        Some(folder) => (PathBuf::from(folder), "pingvratha"),
        None => (
            Path::new(env!("CARGO_MANIFEST_DIR")).join("../../target/staticlib"),
            "ledger",
        ),
    };
    let archive = folder.join(format!("lib{name}.a"));
    println!("cargo::rerun-if-env-changed=PINGVRATHA_FOLDER");
    println!("cargo::rerun-if-changed={}", archive.display());
    println!("cargo::rustc-link-search=native={}", folder.display());
    println!("cargo::rustc-link-lib=static={name}");
    if !archive.exists() {
        println!(
            "cargo::warning={} is not there: run tools/archive ledger, or let PINGVRATHA_FOLDER \
             name the folder lib of an installation",
            archive.display()
        );
    }
}
