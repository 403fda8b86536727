//! What several tests need; a test file uses only a part of it.
#![allow(dead_code)]

use second::check::Checker;
use second::geometry::Window;
use second::steps::Answer;
use second::store::{Shape, Store};
use second::text::{perform, Ending, NoWatcher, Transcript, Watcher};

pub const CLEAN: [u32; 6] = [3, 0, 0, 0, 0, 0];
pub const INSPECT: [u32; 6] = [4, 0, 0, 0, 0, 0];

/// A store whose every step is held against the rules.
pub struct Checked {
    pub store: Store,
    checker: Checker,
}

impl Checked {
    pub fn fresh(counts: [u32; 3]) -> Checked {
        let shape = Shape::new(counts).expect("counts in range");
        let store = Store::fresh(shape);
        let mut checker = Checker::default();
        checker.started(&store).expect("a fresh store is sound");
        Checked { store, checker }
    }

    /// Number and count of a step.
    pub fn step(&mut self, words: [u32; 6]) -> (u32, u32) {
        let answer = self.store.step(words);
        let verdict = self.checker.stepped(&self.store, words, answer);
        assert_eq!(verdict, Ok(()), "after {words:?}");
        let Answer { number, count } = answer;
        (number, count)
    }

    /// Reports a train at a point and gives the number.
    pub fn report_at(&mut self, train: u32, x: u32, y: u32) -> u32 {
        self.step([1, train, x, y, x, y]).0
    }

    /// Train, latest stamp and old count of each used slot.
    pub fn slots(&self) -> Vec<(u32, u32, u32)> {
        let slots = self.store.memo.slots().iter();
        slots
            .map(|(train, slot)| (train.0, slot.stamp.0, slot.old_count))
            .collect()
    }

    /// Train and box of each row that a query gives.
    pub fn query(&self, window: [u32; 4]) -> Vec<(u32, [u32; 4])> {
        let window = Window::proper(window).expect("a proper window");
        let rows = self.store.query(window);
        rows.iter().map(|(t, b)| (t.0, b.sides())).collect()
    }

    pub fn query_all(&self) -> Vec<(u32, [u32; 4])> {
        self.query(Window::WHOLE_MAP.sides())
    }

    /// Train and box of each row of an open board.
    pub fn rows(&self, board: usize) -> Vec<(u32, [u32; 4])> {
        let board = self.store.boards.all()[board].as_ref();
        let rows = &board.expect("an open board").rows;
        rows.iter().map(|(t, b)| (t.0, b.sides())).collect()
    }
}

/// What the program prints for an input.
pub fn output_of(input: impl AsRef<[u8]>) -> String {
    perform(input.as_ref(), &mut NoWatcher).output
}

/// Runs an input with every step held against the rules.
pub fn checked(input: &[u8]) -> Transcript {
    let transcript = perform(input, &mut Checker::default());
    if let Ending::Complaint { line, what } = &transcript.ending {
        panic!("line {line}: {what}");
    }
    transcript
}
