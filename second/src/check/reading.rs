//! A store as its words tell it.

use super::layout::{parts, read_board, read_memo, read_page};
use std::collections::{BTreeMap, BTreeSet};

pub type Sides = [u32; 4];

const LAST_METRE: u32 = 1_048_575;
pub const WHOLE_MAP: Sides = [0, 0, LAST_METRE, LAST_METRE];

/// A leaf place.
#[derive(Clone, Copy, Debug, PartialEq, Eq, PartialOrd, Ord)]
pub struct Held {
    pub train: u32,
    pub stamp: u32,
    pub sides: Sides,
}

#[derive(Clone, Copy, Debug, PartialEq, Eq)]
pub enum Kind {
    Free,
    Leaf,
    Inner,
}

/// A page's header with its used places.
#[derive(Debug)]
pub struct PageWords {
    pub kind: Kind,
    pub mark: u32,
    pub places: Vec<[u32; 6]>,
}

/// An open board; a closed one is `None`.
#[derive(Debug)]
pub struct BoardWords {
    pub window: Sides,
    pub rows: BTreeMap<u32, Sides>,
}

#[derive(Clone, Copy, Debug, PartialEq, Eq)]
pub struct SlotWords {
    pub stamp: u32,
    pub old_count: u32,
}

/// All that the words of a store say.
#[derive(Debug, Default)]
pub struct Reading {
    pub next_stamp: u32,
    pub root: u32,
    pub levels: u32,
    pub slot_count: usize,
    pub pages: Vec<PageWords>,
    pub slots: BTreeMap<u32, SlotWords>,
    pub boards: Vec<Option<BoardWords>>,
}

pub fn is_proper([x0, y0, x1, y1]: Sides) -> bool {
    x0 <= x1 && y0 <= y1 && x1 <= LAST_METRE && y1 <= LAST_METRE
}

pub fn meets(a: Sides, b: Sides) -> bool {
    let apart = a[2] < b[0] || b[2] < a[0] || a[3] < b[1] || b[3] < a[1];
    !apart
}

/// Complains with `what` unless `holds`.
pub fn demand(holds: bool, what: impl FnOnce() -> String) -> Result<(), String> {
    if holds {
        return Ok(());
    }
    Err(what())
}

pub fn first_four(words: &[u32]) -> Sides {
    [words[0], words[1], words[2], words[3]]
}

impl Reading {
    /// Reads all words, or says what in them has no meaning.
    pub fn of(words: &[u32]) -> Result<Reading, String> {
        let parts = parts(words)?;
        let (next_stamp, root, levels) = (words[1], words[2], words[3]);
        demand(next_stamp >= 1, || "word 1 is 0".into())?;
        demand(root < words[5], || "word 2 is no page".into())?;
        demand((1..=5).contains(&levels), || "word 3 out of range".into())?;
        let numbered = |what: &'static str, number: usize| {
            move |complaint: String| format!("{what} {number}: {complaint}")
        };
        let pages = parts.pages.chunks_exact(52).enumerate();
        let boards = parts.boards.chunks_exact(86).enumerate();
        Ok(Reading {
            next_stamp,
            root,
            levels,
            slot_count: words[7] as usize,
            pages: pages
                .map(|(n, page)| read_page(page, words[5]).map_err(numbered("page", n)))
                .collect::<Result<_, _>>()?,
            slots: read_memo(parts.memo)?,
            boards: boards
                .map(|(n, board)| read_board(board).map_err(numbered("board", n)))
                .collect::<Result<_, _>>()?,
        })
    }

    /// All leaves by page number.
    pub fn leaves(&self) -> impl Iterator<Item = (u32, &PageWords)> {
        let pages = (0..).zip(&self.pages);
        pages.filter(|(_, page)| page.kind == Kind::Leaf)
    }

    /// All held entries, each with the number of its leaf.
    pub fn held(&self) -> impl Iterator<Item = (u32, Held)> + '_ {
        self.leaves()
            .flat_map(|(number, leaf)| leaf.entries().map(move |entry| (number, entry)))
    }

    /// Held entries without the pages they stand in.
    pub fn held_set(&self) -> BTreeSet<Held> {
        self.held().map(|(_, entry)| entry).collect()
    }

    pub fn is_latest(&self, entry: &Held) -> bool {
        match self.slots.get(&entry.train) {
            None => true,
            Some(slot) => slot.stamp == entry.stamp,
        }
    }

    /// The latest entries by train.
    pub fn latest_boxes(&self) -> BTreeMap<u32, Sides> {
        let held = self.held().map(|(_, entry)| entry);
        held.filter(|entry| self.is_latest(entry))
            .map(|entry| (entry.train, entry.sides))
            .collect()
    }

    pub fn open_boards(&self) -> impl Iterator<Item = (usize, &BoardWords)> {
        let boards = self.boards.iter().enumerate();
        boards.filter_map(|(number, board)| Some((number, board.as_ref()?)))
    }

    pub fn smallest_mark(&self) -> u32 {
        self.leaves().map(|(_, leaf)| leaf.mark).min().unwrap_or(0)
    }
}

impl PageWords {
    pub fn entries(&self) -> impl Iterator<Item = Held> + '_ {
        self.places.iter().map(|place| Held {
            train: place[4],
            stamp: place[5],
            sides: first_four(place),
        })
    }
}
