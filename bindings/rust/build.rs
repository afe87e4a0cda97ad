//! Links libweigher.a, the archive of the proved functions.

use std::env;
use std::path::{Path, PathBuf};

/// The environment variable that names the archive's folder.
const FOLDER: &str = "WEIGHER_LIB_DIR";

fn main() {
    println!("cargo::rerun-if-env-changed={FOLDER}");
    let folder = folder();
    let archive = folder.join("libweigher.a");
    println!("cargo::rerun-if-changed={}", archive.display());
    if archive.is_file() {
        println!("cargo::rustc-link-search=native={}", folder.display());
        println!("cargo::rustc-link-lib=static=weigher");
    } else {
        println!(
            "cargo::error={} is not there: run `make archive` in the weigher's repository, or set {FOLDER} to the folder of libweigher.a",
            archive.display()
        );
    }
}

/// Without the variable it is target/staticlib of the repository that this crate stands in.
fn folder() -> PathBuf {
    let package = env::var_os("CARGO_MANIFEST_DIR").expect("cargo sets it");
    let package = Path::new(&package);
    match env::var_os(FOLDER) {
        Some(folder) => package.join(folder),
        None => package.join("../../target/staticlib"),
    }
}
