//! Finds the proved library's archive and has it linked.

use std::env;
use std::path::PathBuf;

/// Where the archive is looked for, if not in the repository's own target folder.
const FOLDER: &str = "MIREPILLAR_LIB_DIR";

fn folder() -> PathBuf {
    match env::var_os(FOLDER) {
        Some(folder) => PathBuf::from(folder),
        None => PathBuf::from(env!("CARGO_MANIFEST_DIR")).join("../../target/staticlib"),
    }
}

fn main() {
    let folder = folder();
    let archive = folder.join("libmirepillar.a");
    println!("cargo:rerun-if-env-changed={FOLDER}");
    println!("cargo:rerun-if-changed={}", archive.display());
    if !archive.exists() {
        eprintln!("{} does not exist: make it with tools/archive, or name its folder in {FOLDER}.", archive.display());
        std::process::exit(1);
    }
    println!("cargo:rustc-link-search=native={}", folder.display());
    println!("cargo:rustc-link-lib=static=mirepillar");
}
