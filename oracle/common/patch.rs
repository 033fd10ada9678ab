//! Used by two build scripts: reads a file of the Rust from where it stands, changes what has to be lent, and leaves
//! the result in the build's own folder. Nothing of the Rust's text is kept in this repository but the patterns.

use std::path::{Path, PathBuf};
use std::{env, fs};

/// One change. The number of places is asserted, so that another edition of the Rust can't slip through half changed.
pub struct Patch {
    pub from: &'static str,
    pub to: &'static str,
    pub hits: usize,
}

/// Where the Rust stands: LADLETWIG_RUST_SOURCE, else the shared folder beside the checkout.
fn source_folder() -> PathBuf {
    println!("cargo:rerun-if-env-changed=LADLETWIG_RUST_SOURCE");
    match env::var_os("LADLETWIG_RUST_SOURCE") {
        Some(folder) => PathBuf::from(folder),
        None => Path::new(&env::var_os("CARGO_MANIFEST_DIR").unwrap()).join("../../../shared/docs/src"),
    }
}

fn apply(text: String, patch: &Patch) -> String {
    let hits = text.matches(patch.from).count();
    assert_eq!(hits, patch.hits, "places with {:?}: the Rust is another edition than the one patched here", patch.from);
    text.replace(patch.from, patch.to)
}

/// Reads `package/src/name`, applies the patches in their order and writes OUT_DIR/name.
pub fn patched(package: &str, name: &str, patches: &[Patch]) {
    let source = source_folder().join(package).join("src").join(name);
    println!("cargo:rerun-if-changed={}", source.display());
    let text = fs::read_to_string(&source)
        .unwrap_or_else(|error| panic!("{}: {error}; LADLETWIG_RUST_SOURCE names the folder", source.display()));
    let text = patches.iter().fold(text, apply);
    fs::write(Path::new(&env::var_os("OUT_DIR").unwrap()).join(name), text).unwrap();
}
