//! The words of a store that is to be damaged, with the places of its parts.

use crate::store::{Shape, Store};
use crate::words::words_of;

/// A store's words; the sizes are those it had before any damage.
pub struct Lent {
    pub words: Vec<u32>,
    pages: usize,
    slots: usize,
}

impl Lent {
    /// The store of these sizes after these steps.
    pub fn after(sizes: [u32; 3], steps: impl IntoIterator<Item = [u32; 6]>) -> Lent {
        let shape = Shape::new(sizes).expect("sizes in range");
        let mut store = Store::fresh(shape);
        for step in steps {
            let answer = store.step(step);
            assert_eq!(answer.number, 0, "{step:?}");
        }
        Lent {
            words: words_of(&store),
            pages: shape.pages as usize,
            slots: shape.slots as usize,
        }
    }

    pub fn page(&self, number: usize) -> usize {
        16 + 52 * number
    }

    pub fn place(&self, page: usize, number: usize) -> usize {
        self.page(page) + 4 + 6 * number
    }

    pub fn slot(&self, number: usize) -> usize {
        self.page(self.pages) + 3 * number
    }

    pub fn board(&self, number: usize) -> usize {
        self.slot(self.slots) + 86 * number
    }

    pub fn row(&self, board: usize, number: usize) -> usize {
        self.board(board) + 6 + 5 * number
    }

    pub fn set(&mut self, at: usize, word: u32) {
        self.words[at] = word;
    }

    /// Writes these words from a place on.
    pub fn put(&mut self, from: usize, words: &[u32]) {
        self.words[from..from + words.len()].copy_from_slice(words);
    }

    /// Moves the words behind a part over it and fills up with zeros to the end of the whole.
    pub fn close_gap(&mut self, part: std::ops::Range<usize>, end: usize) {
        self.words[part.start..end].rotate_left(part.len());
        self.words[end - part.len()..end].fill(0);
    }

    /// Takes a used place out of a page.
    pub fn drop_place(&mut self, page: usize, number: usize) {
        let (from, to) = (self.place(page, number), self.place(page, number + 1));
        self.close_gap(from..to, self.page(page + 1));
        let count = self.page(page) + 1;
        self.words[count] -= 1;
    }

    /// Puts a place behind the used ones of a page.
    pub fn add_place(&mut self, page: usize, words: [u32; 6]) {
        let count = self.page(page) + 1;
        let place = self.place(page, self.words[count] as usize);
        self.put(place, &words);
        self.words[count] += 1;
    }

    pub fn free_page(&mut self, number: usize) {
        let (from, to) = (self.page(number), self.page(number + 1));
        self.words[from..to].fill(0);
    }

    /// The smallest box that covers the used places of a page.
    pub fn cover(&self, page: usize) -> [u32; 4] {
        let count = self.words[self.page(page) + 1] as usize;
        let side = |word| (0..count).map(move |place| self.words[self.place(page, place) + word]);
        let least = |word| side(word).min().unwrap_or(0);
        let most = |word| side(word).max().unwrap_or(0);
        [least(0), least(1), most(2), most(3)]
    }
}
