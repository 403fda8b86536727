//! Every form of text that 01 and the choices beside it name, good and bad.

mod common;

use common::output_of;
use second::text::MOST_BYTES;

/// The input's outputs after `start 0`, or all of it where it does not start so.
fn after_start(input: impl AsRef<[u8]>) -> String {
    let output = output_of(input);
    output.strip_prefix("start 0\n").unwrap_or(&output).into()
}

#[test]
fn a_start_without_steps() {
    assert_eq!(output_of("4 8 1\n"), "start 0\n");
    assert_eq!(output_of("4 8 1"), "start 0\n");
    assert_eq!(output_of("192 1024 32\n"), "start 0\n");
    assert_eq!(output_of("1 1 0\n"), "start 0\n");
}

#[test]
fn the_last_newline_may_be_missing() {
    let with = output_of("4 8 1\n3 0 0 0 0 0\n");
    assert_eq!(with, "start 0\n3 0 0\n");
    assert_eq!(output_of("4 8 1\n3 0 0 0 0 0"), with);
}

#[test]
fn empty_and_blank_inputs_are_a_bad_line_1() {
    for input in ["", "\n", "\n\n", " ", " \n", "\r\n", "\n4 8 1\n"] {
        assert_eq!(output_of(input), "bad line 1\n", "{input:?}");
    }
}

#[test]
fn bad_first_lines() {
    let bad = [
        "4 8\n",
        "4 8 1 0\n",
        "4 8 1 \n",
        " 4 8 1\n",
        "4  8 1\n",
        "4\t8 1\n",
        "4 8 1\r\n",
        "+4 8 1\n",
        "-4 8 1\n",
        "4 8 1.0\n",
        "4 8 x\n",
        "4294967296 8 1\n",
        "4 8 99999999999999999999999999999999\n",
        "1 7 5 5 5 5\n",
    ];
    for input in bad {
        assert_eq!(output_of(input), "bad line 1\n", "{input:?}");
    }
}

#[test]
fn bad_step_lines() {
    let bad: [&[u8]; 22] = [
        b"",
        b" ",
        b"3",
        b"3 0 0 0 0",
        b"3 0 0 0 0 0 0",
        b"3 0 0 0 0 0 ",
        b" 3 0 0 0 0 0",
        b"3  0 0 0 0 0",
        b"3 0 0 0 0 0\r",
        b"3\t0 0 0 0 0",
        b"3 0 0 0 0 +0",
        b"3 -0 0 0 0 0",
        b"3 0 0 0 0 0x0",
        b"3 0 0 0 0 a",
        b"3 0 0 0 0 4294967296",
        b"4294967299 0 0 0 0 0",
        b"3 0 0 0 0 18446744073709551616",
        b"3 0 0 0 0 0\0",
        b"3 0 0\0 0 0 0",
        b"3 0 0 0 0 \xff",
        b"3 0 0 0 0 \xd9\xa3",
        b"3,0,0,0,0,0",
    ];
    for line in bad {
        let input = [b"4 8 1\n3 0 0 0 0 0\n", line, b"\n4 0 0 0 0 0\n"].concat();
        assert_eq!(after_start(input), "3 0 0\nbad line 3\n", "{line:?}");
    }
}

#[test]
fn a_bad_line_prints_no_boards() {
    let input = "4 8 1\n5 0 1 1 2 2\n\n";
    assert_eq!(output_of(input), "start 0\n5 0 0\nbad line 3\n");
    assert_eq!(output_of("4 8 1\n\n"), "start 0\nbad line 2\n");
}

#[test]
fn leading_zeros_and_the_largest_number_are_fine() {
    let zeros = "0".repeat(500);
    let input = format!("004 {zeros}8 01\n{zeros}1 4294967295 {zeros} 0 00 0\n");
    assert_eq!(output_of(input), "start 0\n1 0 0\n");
    let input = "4 8 1\n4294967295 0 0 0 0 0\n";
    assert_eq!(output_of(input), "start 0\n4294967295 6 0\n");
}

#[test]
fn the_kind_is_printed_as_given() {
    let input = "4 8 1\n99 1 2 3 4 5\n0 0 0 0 0 0\n07 0 0 0 0 0\n3 1 0 0 0 0\n";
    assert_eq!(after_start(input), "99 6 0\n0 6 0\n7 6 0\n3 6 0\n");
}

#[test]
fn a_refused_start_ends_before_later_lines() {
    let refused = [
        "0 8 1",
        "193 8 1",
        "4 0 1",
        "4 1025 1",
        "4 8 33",
        "4294967295 4294967295 4294967295",
    ];
    for start in refused {
        for rest in ["", "\n", "\n\n", "\nbad\n", "\n3 0 0 0 0 0\n"] {
            let input = format!("{start}{rest}");
            assert_eq!(output_of(&input), "start 1\n", "{input:?}");
        }
    }
}

#[test]
fn the_limit_is_65536_bytes() {
    let padded = |length: usize| {
        let rest = "4 8 1\n3 0 0 0 0 0\n";
        let zeros = "0".repeat(length - rest.len());
        zeros + rest
    };
    assert_eq!(output_of(padded(MOST_BYTES)), "start 0\n3 0 0\n");
    assert_eq!(output_of(padded(MOST_BYTES + 1)), "too long\n");
    assert_eq!(output_of(vec![b'x'; MOST_BYTES]), "bad line 1\n");
    assert_eq!(output_of(vec![b'x'; MOST_BYTES + 1]), "too long\n");
}

#[test]
fn boards_are_printed_in_order_with_ascending_trains() {
    let input = "4 8 3\n5 2 0 0 9 9\n5 0 5 5 9 9\n1 4294967295 5 5 6 6\n1 3 0 0 5 5\n1 8 0 0 1 1\n";
    let boards = "\
board 0 rows 2
3 0 0 5 5
4294967295 5 5 6 6
board 2 rows 3
3 0 0 5 5
8 0 0 1 1
4294967295 5 5 6 6
";
    let output = after_start(input);
    assert!(output.ends_with(boards), "{output}");
    assert_eq!(output.lines().count(), 5 + boards.lines().count());
}
