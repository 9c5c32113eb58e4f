//! Links the library's archive: `MF4_LIB`, or the one that the project builds.

use std::path::PathBuf;
use std::{env, fs};

fn main() {
    let here = PathBuf::from(env::var("CARGO_MANIFEST_DIR").expect("cargo names the package's folder"));
    let named = env::var("MF4_LIB").unwrap_or_else(|_| "../build/libmf4.a".to_string());
    let archive = fs::canonicalize(here.join(&named))
        .unwrap_or_else(|e| panic!("MF4_LIB must name the library's archive, not {named}: {e}"));
    println!("cargo:rerun-if-env-changed=MF4_LIB");
    println!("cargo:rerun-if-changed={}", archive.display());
    println!("cargo:rustc-link-arg-bins={}", archive.display());
}
