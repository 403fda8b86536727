//! The checker: holds each step against 01 by the words alone, and against a plain map.
//!
//! It shares no code with the program's tree, memo or boards: it knows the layout of words and
//! the rules, and nothing of how the program arrives at them.

mod changes;
mod expected;
mod judge;
mod layout;
mod reading;
mod sound;
mod upkeep;

pub use judge::{complaints, judge, judge_lines};
pub use reading::Reading;
pub use sound::test_sound;

use crate::counts::Train;
use crate::geometry::Window;
use crate::steps::Answer;
use crate::store::Store;
use crate::text::Watcher;
use crate::words::words_of;
use reading::{meets, Sides, WHOLE_MAP};
use std::collections::BTreeMap;

/// The last accepted report of each train that was not withdrawn after it.
pub type Reported = BTreeMap<u32, Sides>;

/// A step with the answer it gave.
#[derive(Clone, Copy, Debug)]
pub struct Done {
    pub step: [u32; 6],
    pub number: u32,
    pub count: u32,
}

/// The words of a store with their reading.
#[derive(Default)]
pub struct Snapshot {
    pub words: Vec<u32>,
    pub reading: Reading,
}

impl Snapshot {
    pub fn of(words: Vec<u32>) -> Result<Snapshot, String> {
        let reading = Reading::of(&words)?;
        Ok(Snapshot { words, reading })
    }
}

/// Holds every step of a run against the rules.
#[derive(Default)]
pub struct Checker {
    last: Snapshot,
    reported: Reported,
}

impl Watcher for Checker {
    fn started(&mut self, store: &Store) -> Result<(), String> {
        self.last = Snapshot::of(words_of(store))?;
        self.reported.clear();
        test_sound(&self.last.reading)?;
        changes::test_fresh(&self.last.words)?;
        test_queries(&self.last.reading, &self.reported, store)
    }

    fn stepped(&mut self, store: &Store, words: [u32; 6], answer: Answer) -> Result<(), String> {
        let done = Done {
            step: words,
            number: answer.number,
            count: answer.count,
        };
        let after = Snapshot::of(words_of(store))?;
        test_step(&self.last, &after, done)?;
        note(&mut self.reported, done);
        test_demands(&after.reading, &self.reported)?;
        test_queries(&after.reading, &self.reported, store)?;
        self.last = after;
        Ok(())
    }
}

/// Tests the words after a step: sound, and differing from those before as the step says.
pub fn test_step(before: &Snapshot, after: &Snapshot, done: Done) -> Result<(), String> {
    test_sound(&after.reading)?;
    changes::test_changes(before, after, done)
}

fn note(reported: &mut Reported, done: Done) {
    let [kind, a, sides @ ..] = done.step;
    if done.number == 0 && (kind == 1 || kind == 2) {
        reported.remove(&a);
    }
    if done.number == 0 && kind == 1 {
        reported.insert(a, sides);
    }
}

fn within(reported: &Reported, window: Sides) -> Reported {
    let meeting = reported.iter().filter(|(_, &sides)| meets(sides, window));
    meeting.map(|(&train, &sides)| (train, sides)).collect()
}

/// Demands 2 and 3 on the words: latest entries and open boards are the filtered map.
pub fn test_demands(reading: &Reading, reported: &Reported) -> Result<(), String> {
    if reading.latest_boxes() != *reported {
        return Err("the latest entries are not the last reports".into());
    }
    for (number, board) in reading.open_boards() {
        if board.rows != within(reported, board.window) {
            return Err(format!("board {number} is not the last reports in it"));
        }
    }
    Ok(())
}

/// The program's own query of the whole map and of each open board is the filtered map.
fn test_queries(reading: &Reading, reported: &Reported, store: &Store) -> Result<(), String> {
    let boards = reading.open_boards().map(|(_, board)| board.window);
    for sides in boards.chain([WHOLE_MAP]) {
        let window = Window::proper(sides).ok_or("a window is not proper")?;
        let rows = store.query(window);
        let answer: Reported = rows.iter().map(|(&Train(t), b)| (t, b.sides())).collect();
        if answer != within(reported, sides) {
            return Err(format!(
                "a query of {sides:?} is not the last reports in it"
            ));
        }
    }
    Ok(())
}
