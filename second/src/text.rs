//! The program's text: reads lines, runs them, and prints what 01 says, byte for byte.

use crate::steps::Answer;
use crate::store::{Shape, Store};
use std::fmt::Write;

/// The longest input that is looked at.
pub const MOST_BYTES: usize = 65_536;

/// Looks on while a text runs; a complaint ends the run.
pub trait Watcher {
    fn started(&mut self, store: &Store) -> Result<(), String>;
    fn stepped(&mut self, store: &Store, words: [u32; 6], answer: Answer) -> Result<(), String>;
}

/// A watcher that never complains.
pub struct NoWatcher;

impl Watcher for NoWatcher {
    fn started(&mut self, _: &Store) -> Result<(), String> {
        Ok(())
    }

    fn stepped(&mut self, _: &Store, _: [u32; 6], _: Answer) -> Result<(), String> {
        Ok(())
    }
}

/// How a run of a text ended.
pub enum Ending {
    /// After the last line, with the store as it then was.
    Complete(Box<Store>),
    /// With a bad line behind the first, and the store as the lines before it left it.
    Cut(Box<Store>),
    /// Without a store: a text too long, a bad first line or a refused start.
    Early,
    /// With a complaint of the watcher at this line.
    Complaint { line: usize, what: String },
}

/// What a text printed and how it ended.
pub struct Transcript {
    pub output: String,
    pub ending: Ending,
}

/// Runs an input text.
pub fn perform(input: &[u8], watcher: &mut dyn Watcher) -> Transcript {
    let mut output = String::new();
    if input.len() > MOST_BYTES {
        print(&mut output, format_args!("too long"));
        return Transcript {
            output,
            ending: Ending::Early,
        };
    }
    let ending = match run_lines(input, &mut output, watcher) {
        Ok(store) => {
            print_boards(&mut output, &store);
            Ending::Complete(Box::new(store))
        }
        Err(ending) => ending,
    };
    Transcript { output, ending }
}

fn run_lines(
    input: &[u8],
    output: &mut String,
    watcher: &mut dyn Watcher,
) -> Result<Store, Ending> {
    // Without a last newline to take off, an empty input still splits into one blank line.
    let text = input.strip_suffix(b"\n").unwrap_or(input);
    let mut lines = (1..).zip(text.split(|&byte| byte == b'\n'));
    let first = lines.next().map_or(&[][..], |(_, line)| line);
    let mut store = run_start(first, output)?;
    complain_at(1, watcher.started(&store))?;
    for (number, line) in lines {
        let Some(words) = numbers(line) else {
            print_bad_line(number, output);
            return Err(Ending::Cut(Box::new(store)));
        };
        let answer = store.step(words);
        let [kind, told, count] = [words[0], answer.number, answer.count];
        print(output, format_args!("{kind} {told} {count}"));
        complain_at(number, watcher.stepped(&store, words, answer))?;
    }
    Ok(store)
}

fn run_start(line: &[u8], output: &mut String) -> Result<Store, Ending> {
    let counts = numbers(line).ok_or_else(|| {
        print_bad_line(1, output);
        Ending::Early
    })?;
    let shape = Shape::new(counts);
    let number = shape.map_or_else(|refusal| refusal as u32, |_| 0);
    print(output, format_args!("start {number}"));
    shape.map(Store::fresh).map_err(|_| Ending::Early)
}

fn print_bad_line(number: usize, output: &mut String) {
    print(output, format_args!("bad line {number}"));
}

fn complain_at(line: usize, verdict: Result<(), String>) -> Result<(), Ending> {
    verdict.map_err(|what| Ending::Complaint { line, what })
}

fn print_boards(output: &mut String, store: &Store) {
    for (number, board) in store.boards.all().iter().enumerate() {
        let Some(board) = board else { continue };
        let count = board.rows.len();
        print(output, format_args!("board {number} rows {count}"));
        for (train, bbox) in &board.rows {
            let [x0, y0, x1, y1] = bbox.sides();
            print(output, format_args!("{} {x0} {y0} {x1} {y1}", train.0));
        }
    }
}

fn print(output: &mut String, line: std::fmt::Arguments) {
    // Writing to a String can't fail.
    let _ = writeln!(output, "{line}");
}

/// The N decimals of a line parted by single spaces, or none where it has another form.
fn numbers<const N: usize>(line: &[u8]) -> Option<[u32; N]> {
    let fields = line.split(|&byte| byte == b' ');
    let values: Option<Vec<u32>> = fields.map(number).collect();
    values?.try_into().ok()
}

/// A decimal of digits alone that fits into 32 bits, leading zeros allowed.
fn number(field: &[u8]) -> Option<u32> {
    if field.is_empty() {
        return None;
    }
    field.iter().try_fold(0u32, |value, byte| {
        let digit = byte.is_ascii_digit().then(|| u32::from(byte - b'0'))?;
        value.checked_mul(10)?.checked_add(digit)
    })
}
