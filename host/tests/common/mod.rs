//! Replays the text of an input through the library, and prints what the second program prints for it.
#![allow(dead_code)]

use shunebokai::{Row, Sizes, Step, Store};
use std::fmt::Write;

/// The sizes and the steps of an input whose lines are all in form.
pub fn read(input: &str) -> (Sizes, Vec<Step>) {
    let mut lines = input.lines().map(numbers);
    let sizes = lines.next().expect("a line of sizes");
    let [pages, slots, boards] = sizes.try_into().expect("three sizes");
    let sizes = Sizes {
        pages,
        slots,
        boards,
    };
    let step = |words: Vec<u32>| Step::from(<[u32; 6]>::try_from(words).expect("six words"));
    (sizes, lines.map(step).collect())
}

fn numbers(line: &str) -> Vec<u32> {
    let fields = line.split(' ');
    fields.map(|field| field.parse().expect("a word")).collect()
}

/// Runs the steps in batches of this many.
pub fn replay(sizes: Sizes, steps: &[Step], batch: usize) -> (Store<Vec<u32>>, String) {
    let mut store = Store::start(sizes).expect("sizes in range");
    let mut output = String::from("start 0\n");
    for steps in steps.chunks(batch) {
        let answers = store.run(steps).expect("a sound store");
        for (step, answer) in steps.iter().zip(answers) {
            let _ = writeln!(output, "{} {} {}", step.kind, answer.number.0, answer.count);
        }
    }
    (store, output)
}

/// The boards as the program prints them, then a line with all words.
pub fn print_store(store: &Store<Vec<u32>>, boards: u32, output: &mut String) {
    for board in 0..boards {
        let Ok(rows) = store.board(board) else {
            continue;
        };
        let _ = writeln!(output, "board {board} rows {}", rows.len());
        rows.iter().for_each(|row| print_row(row, output));
    }
    let words: Vec<String> = store.words().iter().map(u32::to_string).collect();
    let _ = writeln!(output, "{}", words.join(" "));
}

fn print_row(row: &Row, output: &mut String) {
    let Row { train, bounds } = row;
    let [x0, y0, x1, y1] = [bounds.x0, bounds.y0, bounds.x1, bounds.y1];
    let _ = writeln!(output, "{train} {x0} {y0} {x1} {y1}");
}

/// What `second --words` prints, by the library.
pub fn printed(input: &str, batch: usize) -> (Store<Vec<u32>>, String) {
    let (sizes, steps) = read(input);
    let (store, mut output) = replay(sizes, &steps, batch);
    print_store(&store, sizes.boards, &mut output);
    (store, output)
}
