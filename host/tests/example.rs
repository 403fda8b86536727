//! The C example compiles without a warning, as C and its header as C++, and prints what it should.

use std::path::{Path, PathBuf};
use std::process::Command;

const PRINTED: &str = "\
start 0
5 0 0
1 0 1
1 0 0
1 0 1
3 0 1
4 0 2
1 0 1
board 0 rows 1
9 200 200 200 200
all 2
7 210 150 220 150
9 200 200 200 200
";

fn here(path: &str) -> PathBuf {
    Path::new(env!("CARGO_MANIFEST_DIR")).join(path)
}

/// A compiler with all warnings as errors and the header's folder.
fn compiler(name: &str, standard: &str) -> Command {
    let mut command = Command::new(name);
    command.args([standard, "-Wall", "-Wextra", "-Wpedantic", "-Werror", "-I"]);
    command.arg(here("include"));
    command
}

#[test]
fn the_example_in_c_prints_the_boards_rows() {
    let dir = option_env!("SHUNEBOKAI_LIB_DIR").map_or(here("../crates/shunebokai/out"), PathBuf::from);
    let program = Path::new(env!("CARGO_TARGET_TMPDIR")).join("example");
    let compiled = compiler("gcc", "-std=c11")
        .arg(here("example.c"))
        .arg(dir.join("libshunebokai.a"))
        .arg("-o")
        .arg(&program)
        .status();
    assert!(compiled.expect("gcc").success());
    let output = Command::new(program).output().expect("the example");
    assert!(output.status.success());
    assert_eq!(String::from_utf8_lossy(&output.stdout), PRINTED);
}

#[test]
fn the_header_is_c_plus_plus_too() {
    let checked = compiler("g++", "-std=c++17")
        .args(["-fsyntax-only", "-x", "c++"])
        .arg(here("include/shunebokai.h"))
        .status();
    assert!(checked.expect("g++").success());
}
