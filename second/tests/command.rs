//! The command line: modes, help and errors.

use std::io::Write;
use std::process::{Command, Output, Stdio};

const INPUT: &[u8] = b"1 1 0\n1 7 1 2 3 4\n";

/// Runs the program; it may end before it has read all of a long input.
fn run(arguments: &[&str], input: &[u8]) -> Output {
    let mut child = Command::new(env!("CARGO_BIN_EXE_second"))
        .args(arguments)
        .stdin(Stdio::piped())
        .stdout(Stdio::piped())
        .stderr(Stdio::piped())
        .spawn()
        .expect("the program starts");
    let mut stdin = child.stdin.take().expect("a pipe");
    let _ = stdin.write_all(input);
    drop(stdin);
    child.wait_with_output().expect("the program ends")
}

fn printed(arguments: &[&str], input: &[u8]) -> String {
    let output = run(arguments, input);
    assert_eq!(output.status.code(), Some(0));
    String::from_utf8(output.stdout).expect("text")
}

#[test]
fn run_and_check_print_the_same() {
    assert_eq!(printed(&[], INPUT), "start 0\n1 0 0\n");
    assert_eq!(printed(&["--check"], INPUT), "start 0\n1 0 0\n");
    assert_eq!(printed(&[], b""), "bad line 1\n");
    assert_eq!(printed(&[], &[b'0'; 70_000]), "too long\n");
}

#[test]
fn words_come_in_one_line_after_the_output() {
    let output = printed(&["--words"], INPUT);
    let lines: Vec<&str> = output.lines().collect();
    assert_eq!(lines.len(), 3);
    let words: Vec<&str> = lines[2].split(' ').collect();
    assert_eq!(words.len(), 16 + 52 + 3);
    let header = ["1", "2", "0", "1", "16", "1", "68", "1", "71", "0"];
    assert_eq!(words[..10], header);
    assert_eq!(
        words[16..26],
        ["1", "1", "1", "0", "1", "2", "3", "4", "7", "1"]
    );
    assert_eq!(words[68..], ["7", "1", "1"]);
}

#[test]
fn words_after_a_bad_line_are_those_of_the_lines_before_it() {
    let whole = printed(&["--words"], INPUT);
    let cut = printed(&["--words"], &[INPUT, b"x"].concat());
    assert_eq!(whole.lines().last(), cut.lines().last());
}

#[test]
fn no_words_without_a_store() {
    assert_eq!(printed(&["--words"], b"0 1 1\n"), "start 1\n");
    assert_eq!(printed(&["--words"], b""), "bad line 1\n");
    assert_eq!(printed(&["--words"], &[b'0'; 70_000]), "too long\n");
}

#[test]
fn help_and_made_inputs() {
    assert!(printed(&["--help"], b"").contains("--make PROFILE SEED [STEPS]"));
    let made = printed(&["--make", "tiny", "7", "12"], b"");
    assert_eq!(made.lines().count(), 13);
    let output = printed(&["--check"], made.as_bytes());
    assert!(output.starts_with("start 0\n"));
}

#[test]
fn each_store_of_a_line_is_judged() {
    assert_eq!(printed(&["--judge"], b"\n1 2\n"), "2\n2\n");
    assert_eq!(run(&["--judge"], b"1 x\n").status.code(), Some(2));
    let stores = printed(&["--damaged"], b"");
    let numbers = printed(&["--judge"], stores.as_bytes());
    assert_eq!(numbers.lines().count(), stores.lines().count());
}

#[test]
fn unknown_arguments_end_with_2() {
    let unknown: [&[&str]; 9] = [
        &["--what"],
        &["--words", "--check"],
        &["file.txt"],
        &["--make"],
        &["--make", "tiny"],
        &["--make", "huge", "1"],
        &["--make", "tiny", "-1"],
        &["--make", "tiny", "1", "x"],
        &["--make", "tiny", "1", "2", "3"],
    ];
    for arguments in unknown {
        let output = run(arguments, INPUT);
        assert_eq!(output.status.code(), Some(2), "{arguments:?}");
        assert!(output.stdout.is_empty());
        assert!(output.stderr.starts_with(b"second: "));
    }
}
