//! The store as a whole: tree, memo, boards and the next stamp.

use crate::boards::{Boards, Rows};
use crate::counts::Stamp;
use crate::geometry::Window;
use crate::memo::Memo;
use crate::steps::Refusal;
use crate::tree::Tree;

/// How many pages, memo slots and boards a store has.
#[derive(Clone, Copy, Debug, PartialEq, Eq)]
pub struct Shape {
    pub pages: u32,
    pub slots: u32,
    pub boards: u32,
}

impl Shape {
    /// The shape with these counts, refused with 1 where one is out of range.
    pub fn new([pages, slots, boards]: [u32; 3]) -> Result<Shape, Refusal> {
        let in_range = (1..=192).contains(&pages) && (1..=1024).contains(&slots) && boards <= 32;
        let shape = Shape {
            pages,
            slots,
            boards,
        };
        in_range.then_some(shape).ok_or(Refusal::Counts)
    }
}

#[derive(Clone, Debug)]
pub struct Store {
    pub shape: Shape,
    pub next_stamp: Stamp,
    pub tree: Tree,
    pub memo: Memo,
    pub boards: Boards,
}

impl Store {
    /// The fresh store of this shape.
    pub fn fresh(shape: Shape) -> Store {
        Store {
            shape,
            next_stamp: Stamp::FIRST,
            tree: Tree::fresh(shape.pages),
            memo: Memo::fresh(shape.slots as usize),
            boards: Boards::closed(shape.boards as usize),
        }
    }

    /// The most entries the store may hold.
    pub fn most_held(&self) -> usize {
        3 * self.shape.pages as usize
    }

    /// The latest box of each train that meets the window.
    pub fn query(&self, window: Window) -> Rows {
        let found = self.tree.meeting(window).into_iter();
        found
            .filter(|entry| self.memo.is_latest(entry))
            .map(|entry| (entry.train, entry.bbox))
            .collect()
    }
}
