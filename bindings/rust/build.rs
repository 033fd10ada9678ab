//! Finds the proved archive and has it linked. The folder comes from LADLETWIG_ARCHIVE_DIR, or is the checkout's own.

use std::path::{Path, PathBuf};
use std::{env, process};

const FOLDER: &str = "LADLETWIG_ARCHIVE_DIR";

fn main() {
    println!("cargo:rerun-if-env-changed={FOLDER}");
    let folder = folder();
    let archive = folder.join("libladletwig.a");
    println!("cargo:rerun-if-changed={}", archive.display());
    if !archive.is_file() {
        missing(&archive);
    }
    println!("cargo:rustc-link-search=native={}", folder.display());
    println!("cargo:rustc-link-lib=static=ladletwig");
}

fn folder() -> PathBuf {
    match env::var_os(FOLDER) {
        Some(folder) => PathBuf::from(folder),
        // Cargo always sets CARGO_MANIFEST_DIR for a build script; the checkout's root is two folders above it.
        None => Path::new(&env::var_os("CARGO_MANIFEST_DIR").expect("cargo sets it")).join("../../target/staticlib"),
    }
}

fn missing(archive: &Path) -> ! {
    eprintln!("ladletwig: no archive at {}", archive.display());
    eprintln!("  Make it with `bindings/archive.sh` of the checkout,");
    eprintln!("  or set {FOLDER} to the whole path of a folder that has libladletwig.a.");
    process::exit(1)
}
