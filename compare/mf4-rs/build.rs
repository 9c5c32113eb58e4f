//! Finds the crate's source: `MF4_RS`, or the folder beside the repository.

use std::path::PathBuf;
use std::{env, fs};

fn main() {
    let here = PathBuf::from(env::var("CARGO_MANIFEST_DIR").expect("cargo names the package's folder"));
    let named = env::var("MF4_RS").unwrap_or_else(|_| "../../../shared/docs/src".to_string());
    let root = fs::canonicalize(here.join(&named))
        .unwrap_or_else(|e| panic!("MF4_RS must name the folder of mf4-rs 3.8.0, not {named}: {e}"));
    println!("cargo:rerun-if-env-changed=MF4_RS");
    println!("cargo:rerun-if-changed={}", root.join("src").display());
    println!("cargo:rustc-env=MF4_RS_SRC={}", root.join("src").display());
}
