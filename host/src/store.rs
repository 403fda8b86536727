//! A store over words that it owns or is lent.

use crate::plain::{values, words, words_mut};
use crate::{calls, Answer, Bounds, Number, Row, Step};

/// The most rows that a query can give: 3 entries a page, and at most 192 pages.
pub const MOST_ROWS: usize = 576;

/// How many pages (1 to 192), memo slots (1 to 1,024) and boards (0 to 32) a store has.
#[derive(Clone, Copy, Debug, PartialEq, Eq)]
pub struct Sizes {
    pub pages: u32,
    pub slots: u32,
    pub boards: u32,
}

impl Sizes {
    pub const LARGEST: Sizes = Sizes {
        pages: 192,
        slots: 1024,
        boards: 32,
    };

    /// How many words a store of these sizes has; `Err` where one is out of range.
    pub fn words(self) -> Result<usize, Number> {
        let most = Sizes::LARGEST;
        let some = self.pages >= 1 && self.slots >= 1;
        let few =
            self.pages <= most.pages && self.slots <= most.slots && self.boards <= most.boards;
        if !(some && few) {
            return Err(Number::SIZES_OUT_OF_RANGE);
        }
        let [p, k, b] = [self.pages, self.slots, self.boards].map(|n| n as usize);
        Ok(16 + 52 * p + 3 * k + 86 * b)
    }
}

/// A store, of which the words `W` are owned (`Vec<u32>`) or lent (`&mut [u32]`; `&[u32]` to read only).
#[derive(Clone, Debug)]
pub struct Store<W> {
    words: W,
}

impl Store<Vec<u32>> {
    /// A fresh store in words of its own.
    pub fn start(sizes: Sizes) -> Result<Store<Vec<u32>>, Number> {
        Store::start_in(sizes, vec![0; sizes.words()?])
    }
}

impl<W: AsRef<[u32]>> Store<W> {
    /// A store that was kept, say in a file. Nothing is tested yet: each call judges the words that it is lent.
    pub fn lent(words: W) -> Store<W> {
        Store { words }
    }

    /// The words as they stand, to be kept.
    pub fn words(&self) -> &[u32] {
        self.words.as_ref()
    }

    pub fn into_words(self) -> W {
        self.words
    }

    /// The trains that meet the window, ascending.
    pub fn query(&self, window: Bounds) -> Result<Vec<Row>, Number> {
        let mut rows = vec![Row::default(); MOST_ROWS];
        let count = self.query_into(window, &mut rows)?;
        rows.truncate(count);
        Ok(rows)
    }

    /// The same into lent rows; gives how many, and leaves those after the last as they were.
    pub fn query_into(&self, window: Bounds, rows: &mut [Row]) -> Result<usize, Number> {
        let Bounds { x0, y0, x1, y1 } = window;
        let (number, count) = calls::query(self.words(), [x0, y0, x1, y1], words_mut(rows));
        Number(number).done()?;
        Ok(count)
    }

    /// `Ok` if the board's rows can be read.
    pub fn board_test(&self, board: u32) -> Result<(), Number> {
        Number(calls::board_test(self.words(), board)).done()
    }

    /// The board's rows as they stand in the store, ascending.
    pub fn board(&self, board: u32) -> Result<&[Row], Number> {
        let (number, rows) = calls::board_rows(self.words(), board);
        Number(number).done()?;
        Ok(values(rows))
    }
}

impl<W: AsRef<[u32]> + AsMut<[u32]>> Store<W> {
    /// A fresh store in these words, whatever they held. Their length must be what the sizes ask for.
    pub fn start_in(sizes: Sizes, mut words: W) -> Result<Store<W>, Number> {
        let Sizes {
            pages,
            slots,
            boards,
        } = sizes;
        Number(calls::start(pages, slots, boards, words.as_mut())).done()?;
        Ok(Store { words })
    }

    /// Runs the steps in turn, with an answer for each. `Err` is the whole run refused, and nothing done.
    ///
    /// A step has a type, so no slice of an odd length gets here:
    /// ```compile_fail
    /// # let mut store = shunebokai::Store::start(shunebokai::Sizes::LARGEST).unwrap();
    /// store.run(&[1, 7, 5, 5, 5]);
    /// ```
    pub fn run(&mut self, steps: &[Step]) -> Result<Vec<Answer>, Number> {
        let mut answers = vec![Answer::default(); steps.len()];
        self.run_into(steps, &mut answers)?;
        Ok(answers)
    }

    /// The same into lent answers, of which there must be as many as steps.
    pub fn run_into(&mut self, steps: &[Step], answers: &mut [Answer]) -> Result<(), Number> {
        Number(calls::run(
            self.words.as_mut(),
            words(steps),
            words_mut(answers),
        ))
        .done()
    }
}
