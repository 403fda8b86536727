//! The terminal boards: a window each, with the latest box of every train that meets it.

use crate::counts::Train;
use crate::geometry::{Bbox, Window};
use std::collections::BTreeMap;

/// The most rows a board has.
pub const MOST_ROWS: usize = 16;

pub type Rows = BTreeMap<Train, Bbox>;

#[derive(Clone, Debug)]
pub struct Board {
    pub window: Window,
    pub rows: Rows,
}

impl Board {
    fn would_overflow(&self, train: Train, bbox: Bbox) -> bool {
        bbox.meets(self.window) && !self.rows.contains_key(&train) && self.rows.len() >= MOST_ROWS
    }

    /// Brings the train's row up to date; tells whether it is listed before or after.
    fn update(&mut self, train: Train, bbox: Option<Bbox>) -> bool {
        let before = self.rows.remove(&train).is_some();
        let listed = bbox.filter(|bbox| bbox.meets(self.window));
        if let Some(bbox) = listed {
            self.rows.insert(train, bbox);
        }
        before || listed.is_some()
    }
}

/// All boards by number; a closed one is `None`.
#[derive(Clone, Debug)]
pub struct Boards(Vec<Option<Board>>);

impl Boards {
    pub fn closed(count: usize) -> Boards {
        Boards(vec![None; count])
    }

    pub fn all(&self) -> &[Option<Board>] {
        &self.0
    }

    /// The place of a board, whether open or closed, if there is such a number.
    pub fn get_mut(&mut self, number: u32) -> Option<&mut Option<Board>> {
        self.0.get_mut(number as usize)
    }

    /// Whether a report of this box would need a 17th row on some board.
    pub fn would_overflow(&self, train: Train, bbox: Bbox) -> bool {
        let mut open = self.0.iter().flatten();
        open.any(|board| board.would_overflow(train, bbox))
    }

    /// Gives the train its new box, or none, on every open board; counts those that list it
    /// before or after.
    pub fn update(&mut self, train: Train, bbox: Option<Bbox>) -> usize {
        let open = self.0.iter_mut().flatten();
        let touched = open.map(|board| board.update(train, bbox));
        touched.filter(|&listed| listed).count()
    }
}
