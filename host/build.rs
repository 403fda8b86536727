//! Links the archive that `rt lib` in `crates/shunebokai` writes.

use std::path::PathBuf;
use std::{env, process};

const DIR: &str = "SHUNEBOKAI_LIB_DIR";

fn main() {
    let here = PathBuf::from(env::var_os("CARGO_MANIFEST_DIR").expect("cargo names the folder"));
    let dir = env::var_os(DIR).map_or(here.join("../crates/shunebokai/out"), PathBuf::from);
    let archive = dir.join("libshunebokai.a");
    println!("cargo:rerun-if-env-changed={DIR}");
    println!("cargo:rerun-if-changed={}", archive.display());
    if !archive.is_file() {
        eprintln!(
            "the archive {} is missing: run `rt lib` in crates/shunebokai, \
             which proves the library and writes it, or set {DIR} to the folder that has it",
            archive.display()
        );
        process::exit(1);
    }
    println!("cargo:rustc-link-search=native={}", dir.display());
    println!("cargo:rustc-link-lib=static=shunebokai");
}
