//! What each kind of step may change in the words, and the count it must give.

use super::expected::expected_number;
use super::reading::{demand, meets, Held, Kind, Reading, Sides, SlotWords};
use super::{Done, Snapshot};
use std::collections::BTreeMap;

/// The words before and after a step, each with its reading.
pub struct Change<'a> {
    pub before: &'a Reading,
    pub after: &'a Reading,
    words_before: &'a [u32],
    words_after: &'a [u32],
    done: Done,
}

/// Tests that the words are those of a fresh store.
pub fn test_fresh(words: &[u32]) -> Result<(), String> {
    let mut fresh = vec![0; words.len()];
    fresh[4..10].copy_from_slice(&words[4..10]);
    for (place, word) in [(0, 1), (1, 1), (3, 1), (16, 1), (18, 1)] {
        fresh[place] = word;
    }
    demand(words == fresh, || "the store is not fresh".into())
}

/// Tests number, count and every change of a step; `after` is already known to be sound.
pub fn test_changes(before: &Snapshot, after: &Snapshot, done: Done) -> Result<(), String> {
    let change = Change {
        before: &before.reading,
        after: &after.reading,
        words_before: &before.words,
        words_after: &after.words,
        done,
    };
    let (before, after) = (change.words_before, change.words_after);
    let number = expected_number(change.before, done.step);
    demand(done.number == number, || {
        format!("number {} instead of {number}", done.number)
    })?;
    demand(before[4..16] == after[4..16], || "the shape changes".into())?;
    if number != 0 {
        demand(before == after, || "a refused step changes a word".into())?;
        return change.test_count(0);
    }
    match done.step[0] {
        1 => change.test_report(),
        2 => change.test_withdraw(),
        3 => change.test_clean(),
        4 => change.test_inspect(),
        _ => change.test_board_step(),
    }
}

impl Change<'_> {
    pub fn test_count(&self, count: usize) -> Result<(), String> {
        demand(self.done.count as usize == count, || {
            format!("count {} instead of {count}", self.done.count)
        })
    }

    fn same(&self, what: &str, from: usize, to: usize) -> Result<(), String> {
        demand(
            self.words_before[from..to] == self.words_after[from..to],
            || format!("{what} changes"),
        )
    }

    fn memo_at(&self) -> usize {
        self.words_before[6] as usize
    }

    fn boards_at(&self) -> usize {
        self.words_before[8] as usize
    }

    pub fn same_pages(&self) -> Result<(), String> {
        self.same("root or levels", 2, 4)?;
        self.same("a page", 16, self.memo_at())
    }

    fn same_memo(&self) -> Result<(), String> {
        self.same("the memo", self.memo_at(), self.boards_at())
    }

    pub fn same_boards(&self) -> Result<(), String> {
        self.same("a board", self.boards_at(), self.words_before.len())
    }

    pub fn same_stamp(&self) -> Result<(), String> {
        self.same("the next stamp", 1, 2)
    }

    fn test_report(&self) -> Result<(), String> {
        let [_, train, sides @ ..] = self.done.step;
        self.test_stamp_taken(train)?;
        let stamp = self.before.next_stamp;
        let mut held = self.before.held_set();
        held.insert(Held {
            train,
            stamp,
            sides,
        });
        demand(self.after.held_set() == held, || {
            "held entries are not those before and the new one".into()
        })?;
        self.test_marks(None)?;
        self.test_train_on_boards(train, Some(sides))
    }

    fn test_withdraw(&self) -> Result<(), String> {
        let train = self.done.step[1];
        self.test_stamp_taken(train)?;
        self.same_pages()?;
        self.test_train_on_boards(train, None)
    }

    /// The stamp is taken and noted in the memo.
    fn test_stamp_taken(&self, train: u32) -> Result<(), String> {
        let stamp = self.before.next_stamp;
        demand(self.after.next_stamp == stamp + 1, || {
            "the next stamp does not rise by 1".into()
        })?;
        let old_count = 1 + self.before.slots.get(&train).map_or(0, |s| s.old_count);
        let mut slots = self.before.slots.clone();
        slots.insert(train, SlotWords { stamp, old_count });
        self.test_memo(&slots)
    }

    pub fn test_memo(&self, slots: &BTreeMap<u32, SlotWords>) -> Result<(), String> {
        demand(self.after.slots == *slots, || "the memo is wrong".into())
    }

    /// Boards change only in the train's row; the count is of boards with it before or after.
    fn test_train_on_boards(&self, train: u32, sides: Option<Sides>) -> Result<(), String> {
        let mut touched = 0;
        for (number, board) in self.before.open_boards() {
            let mut rows = board.rows.clone();
            let listed_before = rows.remove(&train).is_some();
            let listed_after = sides.filter(|&sides| meets(sides, board.window));
            rows.extend(listed_after.map(|sides| (train, sides)));
            let after = self.after.boards[number].as_ref();
            let right = after.is_some_and(|a| a.rows == rows && a.window == board.window);
            demand(right, || format!("board {number} is wrong after the step"))?;
            if listed_before || listed_after.is_some() {
                touched += 1;
            } else {
                self.same_board(number)?;
            }
        }
        for (number, board) in self.before.boards.iter().enumerate() {
            if board.is_none() {
                self.same_board(number)?;
            }
        }
        self.test_count(touched)
    }

    fn same_board(&self, number: usize) -> Result<(), String> {
        let start = self.boards_at() + 86 * number;
        self.same(&format!("board {number}"), start, start + 86)
    }

    /// Apart from the cleaned leaf, a leaf keeps its mark and so does each entry's leaf.
    pub fn test_marks(&self, cleaned: Option<u32>) -> Result<(), String> {
        for (number, leaf) in self.before.leaves() {
            let after = &self.after.pages[number as usize];
            if after.kind == Kind::Leaf && cleaned != Some(number) {
                demand(after.mark == leaf.mark, || {
                    format!("the mark of leaf {number} changes")
                })?;
            }
        }
        let marks = |reading: &Reading, number: u32| reading.pages[number as usize].mark;
        let mut marks_after = BTreeMap::new();
        for (number, entry) in self.after.held() {
            marks_after.insert(entry.stamp, marks(self.after, number));
        }
        for (number, entry) in self.before.held() {
            let mark = marks(self.before, number);
            let kept = marks_after.get(&entry.stamp).is_none_or(|&m| m == mark);
            demand(kept || cleaned == Some(number), || {
                format!("stamp {} stands under another mark", entry.stamp)
            })?;
        }
        Ok(())
    }

    /// Open and close alter only their own board.
    fn test_board_step(&self) -> Result<(), String> {
        let [kind, a, window @ ..] = self.done.step;
        self.same_stamp()?;
        self.same_pages()?;
        self.same_memo()?;
        for number in (0..self.before.boards.len()).filter(|&n| n != a as usize) {
            self.same_board(number)?;
        }
        let own = self.after.boards[a as usize].as_ref();
        if kind == 6 {
            demand(own.is_none(), || format!("board {a} is not closed"))?;
            return self.test_count(0);
        }
        let rows = super::within(&self.before.latest_boxes(), window);
        let right = own.is_some_and(|board| board.rows == rows && board.window == window);
        demand(right, || format!("board {a} is not opened rightly"))?;
        self.test_count(rows.len())
    }
}
