//! An input in the making; the steps run along, so that a profile can look at the store.

use crate::store::{Shape, Store};
use crate::text::MOST_BYTES;
use std::fmt::Write;

/// No step line is longer: six numbers of ten digits, each with a space or newline.
const LONGEST_LINE: usize = 66;

pub struct Script {
    pub store: Store,
    text: String,
    steps_left: usize,
}

impl Script {
    /// A script whose store is fresh; the profiles give counts that are in range.
    pub fn new(counts: [u32; 3], steps: usize) -> Script {
        let shape = Shape::new(counts).expect("a profile keeps to the ranges");
        let [pages, slots, boards] = counts;
        Script {
            store: Store::fresh(shape),
            text: format!("{pages} {slots} {boards}\n"),
            steps_left: steps,
        }
    }

    /// Whether there is no room for another step.
    pub fn is_full(&self) -> bool {
        self.steps_left == 0 || self.text.len() + LONGEST_LINE > MOST_BYTES
    }

    /// Adds a step and gives its number; a full script takes no more and gives 0.
    pub fn step(&mut self, words: [u32; 6]) -> u32 {
        if self.is_full() {
            return 0;
        }
        self.steps_left -= 1;
        let [kind, a, x0, y0, x1, y1] = words;
        // Writing to a String can't fail.
        let _ = writeln!(self.text, "{kind} {a} {x0} {y0} {x1} {y1}");
        self.store.step(words).number
    }

    pub fn report(&mut self, train: u32, [x0, y0, x1, y1]: [u32; 4]) -> u32 {
        self.step([1, train, x0, y0, x1, y1])
    }

    pub fn withdraw(&mut self, train: u32) -> u32 {
        self.step([2, train, 0, 0, 0, 0])
    }

    pub fn clean(&mut self) -> u32 {
        self.step([3, 0, 0, 0, 0, 0])
    }

    pub fn inspect(&mut self) -> u32 {
        self.step([4, 0, 0, 0, 0, 0])
    }

    pub fn open(&mut self, board: u32, [x0, y0, x1, y1]: [u32; 4]) -> u32 {
        self.step([5, board, x0, y0, x1, y1])
    }

    pub fn close(&mut self, board: u32) -> u32 {
        self.step([6, board, 0, 0, 0, 0])
    }

    pub fn has_room(&self) -> bool {
        self.store.tree.held() < self.store.most_held()
    }

    pub fn text(self) -> String {
        self.text
    }
}
