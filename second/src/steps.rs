//! The six kinds of step: how their words are read, when they are refused, what they do.

use crate::boards::{Board, MOST_ROWS};
use crate::counts::{Stamp, Train};
use crate::geometry::{Bbox, Window};
use crate::page::{Entry, Load};
use crate::store::Store;

/// Why a call is refused; the value is 01's number.
#[derive(Clone, Copy, Debug, PartialEq, Eq)]
pub enum Refusal {
    Counts = 1,
    Words = 6,
    NoTrain = 7,
    NotProper = 8,
    NoBoard = 9,
    OpenOrClosed = 10,
    StampsSpent = 11,
    EntriesFull = 12,
    MemoFull = 13,
    BoardFull = 14,
}

/// What a step answers: its number and its count.
#[derive(Clone, Copy, Debug, PartialEq, Eq)]
pub struct Answer {
    pub number: u32,
    pub count: u32,
}

/// A step whose words are in order.
#[derive(Clone, Copy, Debug)]
enum Step {
    Report(Train, Bbox),
    Withdraw(Train),
    Clean,
    Inspect,
    Open(u32, Window),
    Close(u32),
}

impl Step {
    /// Reads the words; 6, 7 and 8 need no store and come before all that do.
    fn read(words: [u32; 6]) -> Result<Step, Refusal> {
        let [kind, a, sides @ ..] = words;
        match (kind, a, sides) {
            (1, a, sides) => {
                let train = some_train(a)?;
                let bbox = Bbox::proper(sides).ok_or(Refusal::NotProper)?;
                Ok(Step::Report(train, bbox))
            }
            (2, a, [0, 0, 0, 0]) => Ok(Step::Withdraw(some_train(a)?)),
            (3, 0, [0, 0, 0, 0]) => Ok(Step::Clean),
            (4, 0, [0, 0, 0, 0]) => Ok(Step::Inspect),
            (5, a, sides) => {
                let window = Window::proper(sides).ok_or(Refusal::NotProper)?;
                Ok(Step::Open(a, window))
            }
            (6, a, [0, 0, 0, 0]) => Ok(Step::Close(a)),
            _ => Err(Refusal::Words),
        }
    }
}

fn some_train(word: u32) -> Result<Train, Refusal> {
    if word == 0 {
        return Err(Refusal::NoTrain);
    }
    Ok(Train(word))
}

/// Refuses where `fault` holds.
fn refuse_if(fault: bool, refusal: Refusal) -> Result<(), Refusal> {
    if fault {
        return Err(refusal);
    }
    Ok(())
}

impl Store {
    /// Runs one step; a refused one changes nothing and counts 0.
    pub fn step(&mut self, words: [u32; 6]) -> Answer {
        let outcome = Step::read(words).and_then(|step| self.run(step));
        match outcome {
            Ok(count) => Answer {
                number: 0,
                count: count as u32,
            },
            Err(refusal) => Answer {
                number: refusal as u32,
                count: 0,
            },
        }
    }

    fn run(&mut self, step: Step) -> Result<usize, Refusal> {
        match step {
            Step::Report(train, bbox) => self.report(train, bbox),
            Step::Withdraw(train) => self.withdraw(train),
            Step::Clean => Ok(self.clean()),
            Step::Inspect => Ok(self.inspect()),
            Step::Open(board, window) => self.open(board, window),
            Step::Close(board) => self.close(board),
        }
    }

    fn report(&mut self, train: Train, bbox: Bbox) -> Result<usize, Refusal> {
        refuse_if(self.next_stamp == Stamp::LAST, Refusal::StampsSpent)?;
        refuse_if(self.tree.held() >= self.most_held(), Refusal::EntriesFull)?;
        refuse_if(!self.memo.has_room_for(train), Refusal::MemoFull)?;
        refuse_if(self.boards.would_overflow(train, bbox), Refusal::BoardFull)?;
        let stamp = self.take_stamp();
        self.memo.note(train, stamp);
        self.tree.put(Load::Entry(Entry { bbox, train, stamp }));
        Ok(self.boards.update(train, Some(bbox)))
    }

    fn withdraw(&mut self, train: Train) -> Result<usize, Refusal> {
        refuse_if(self.next_stamp == Stamp::LAST, Refusal::StampsSpent)?;
        refuse_if(!self.memo.has_room_for(train), Refusal::MemoFull)?;
        let stamp = self.take_stamp();
        self.memo.note(train, stamp);
        Ok(self.boards.update(train, None))
    }

    fn take_stamp(&mut self) -> Stamp {
        let stamp = self.next_stamp;
        self.next_stamp = stamp.following();
        stamp
    }

    fn clean(&mut self) -> usize {
        let memo = &self.memo;
        let is_obsolete = |entry: &Entry| !memo.is_latest(entry);
        let removed = self.tree.clean(self.next_stamp, &is_obsolete);
        for entry in &removed {
            self.memo.forget_one(entry.train);
        }
        removed.len()
    }

    fn inspect(&mut self) -> usize {
        let (smallest_mark, _) = self.tree.smallest_mark();
        self.memo.free_below(smallest_mark)
    }

    fn open(&mut self, number: u32, window: Window) -> Result<usize, Refusal> {
        let rows = self.query(window);
        let board = self.boards.get_mut(number).ok_or(Refusal::NoBoard)?;
        refuse_if(board.is_some(), Refusal::OpenOrClosed)?;
        refuse_if(rows.len() > MOST_ROWS, Refusal::BoardFull)?;
        let count = rows.len();
        *board = Some(Board { window, rows });
        Ok(count)
    }

    fn close(&mut self, number: u32) -> Result<usize, Refusal> {
        let board = self.boards.get_mut(number).ok_or(Refusal::NoBoard)?;
        refuse_if(board.is_none(), Refusal::OpenOrClosed)?;
        *board = None;
        Ok(0)
    }
}

#[cfg(test)]
mod tests {
    use super::*;
    use crate::store::Shape;
    use crate::words::words_of;

    const LAST: u32 = u32::MAX;

    fn store(counts: [u32; 3]) -> Store {
        Store::fresh(Shape::new(counts).expect("counts in range"))
    }

    fn number(store: &mut Store, words: [u32; 6]) -> u32 {
        store.step(words).number
    }

    #[test]
    fn the_last_stamp_but_one_is_the_last_given_out() {
        let mut store = store([4, 8, 1]);
        store.next_stamp = Stamp(LAST - 1);
        assert_eq!(number(&mut store, [1, 7, 5, 5, 5, 5]), 0);
        assert_eq!(store.next_stamp, Stamp(LAST));
        let before = words_of(&store);
        assert_eq!(number(&mut store, [1, 7, 5, 5, 5, 5]), 11);
        assert_eq!(number(&mut store, [2, 7, 0, 0, 0, 0]), 11);
        assert_eq!(words_of(&store), before);
    }

    #[test]
    fn eleven_stands_between_ten_and_twelve() {
        let mut store = store([1, 1, 1]);
        for _ in 0..3 {
            assert_eq!(number(&mut store, [1, 7, 5, 5, 5, 5]), 0);
        }
        store.next_stamp = Stamp(LAST);
        assert_eq!(number(&mut store, [1, 9, 5, 5, 5, 5]), 11);
        assert_eq!(number(&mut store, [2, 9, 0, 0, 0, 0]), 11);
        assert_eq!(number(&mut store, [1, 0, 5, 5, 4, 5]), 7);
        assert_eq!(number(&mut store, [1, 9, 5, 5, 4, 5]), 8);
        assert_eq!(number(&mut store, [2, 9, 0, 0, 0, 1]), 6);
    }

    #[test]
    fn other_kinds_run_at_the_last_stamp() {
        let mut store = store([1, 1, 1]);
        for _ in 0..3 {
            assert_eq!(number(&mut store, [1, 7, 5, 5, 5, 5]), 0);
        }
        store.next_stamp = Stamp(LAST);
        let cleaned = store.step([3, 0, 0, 0, 0, 0]);
        assert_eq!((cleaned.number, cleaned.count), (0, 2));
        assert_eq!(store.tree.smallest_mark().0, Stamp(LAST));
        let inspected = store.step([4, 0, 0, 0, 0, 0]);
        assert_eq!((inspected.number, inspected.count), (0, 1));
        let opened = store.step([5, 0, 0, 0, 9, 9]);
        assert_eq!((opened.number, opened.count), (0, 1));
        assert_eq!(number(&mut store, [6, 0, 0, 0, 0, 0]), 0);
    }
}
