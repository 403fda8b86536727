//! Pages: every inner page owns its children, and pages not in use wait in a set of free ones.

use crate::counts::{PageNumber, Stamp, Train};
use crate::geometry::{Bbox, Window};
use crate::places::{choose, cover_of, split, Place, MOST_PLACES};
use std::collections::BTreeSet;
use std::mem;

/// A report that is held in a leaf.
#[derive(Clone, Copy, Debug, PartialEq, Eq)]
pub struct Entry {
    pub bbox: Bbox,
    pub train: Train,
    pub stamp: Stamp,
}

/// A child page with the box its parent holds for it.
#[derive(Clone, Debug)]
pub struct Child {
    pub cover: Bbox,
    pub page: Page,
}

#[derive(Clone, Debug)]
pub struct Leaf {
    pub mark: Stamp,
    pub entries: Vec<Entry>,
}

#[derive(Clone, Debug)]
pub enum Content {
    Leaf(Leaf),
    Inner(Vec<Child>),
}

#[derive(Clone, Debug)]
pub struct Page {
    pub number: PageNumber,
    pub content: Content,
}

/// What is put into the tree; a page comes with its level, counted from 1 at the leaves.
pub enum Load {
    Entry(Entry),
    Page(u32, Page),
}

/// The pages that are not in use.
#[derive(Clone, Debug)]
pub struct FreePages(BTreeSet<PageNumber>);

impl Place for Entry {
    fn bbox(&self) -> Bbox {
        self.bbox
    }
}

impl Place for Child {
    fn bbox(&self) -> Bbox {
        self.cover
    }
}

impl Child {
    /// A place for a page, its box made anew.
    pub fn over(page: Page) -> Child {
        let cover = page.cover();
        Child { cover, page }
    }
}

impl FreePages {
    /// All pages but page 0, where the fresh root stands.
    pub fn fresh(page_count: u32) -> FreePages {
        FreePages((1..page_count).map(PageNumber).collect())
    }

    /// The lowest free page; by rules 2 and 4 there is one whenever a page is needed.
    pub fn take_lowest(&mut self) -> PageNumber {
        self.0.pop_first().expect("3P entries fit into P pages")
    }

    pub fn give_back(&mut self, page: PageNumber) {
        self.0.insert(page);
    }
}

impl Load {
    fn bbox(&self) -> Bbox {
        match self {
            Load::Entry(entry) => entry.bbox,
            Load::Page(_, page) => page.cover(),
        }
    }
}

impl Page {
    pub fn place_count(&self) -> usize {
        match &self.content {
            Content::Leaf(leaf) => leaf.entries.len(),
            Content::Inner(children) => children.len(),
        }
    }

    /// The box over all places; only an empty root leaf has none, and it has no parent to ask.
    pub fn cover(&self) -> Bbox {
        let cover = match &self.content {
            Content::Leaf(leaf) => cover_of(&leaf.entries),
            Content::Inner(children) => cover_of(children),
        };
        cover.expect("a page under a parent has places")
    }

    /// Puts a load in at its level; gives the second part where this page had to be split.
    pub fn put(&mut self, level: u32, load: Load, free: &mut FreePages) -> Option<Page> {
        match (&mut self.content, load) {
            (Content::Leaf(leaf), Load::Entry(entry)) => leaf.entries.push(entry),
            (Content::Leaf(_), Load::Page(..)) => unreachable!("pages stand above the leaves"),
            (Content::Inner(children), Load::Page(own, page)) if level == own + 1 => {
                children.push(Child::over(page));
            }
            (Content::Inner(children), load) => {
                let chosen = choose(children, load.bbox());
                let child = &mut children[chosen];
                let second = child.page.put(level - 1, load, free);
                child.cover = child.page.cover();
                children.extend(second.map(Child::over));
            }
        }
        self.split_if_too_full(free)
    }

    fn split_if_too_full(&mut self, free: &mut FreePages) -> Option<Page> {
        if self.place_count() <= MOST_PLACES {
            return None;
        }
        let content = match &mut self.content {
            Content::Leaf(leaf) => {
                let (first, entries) = split(mem::take(&mut leaf.entries));
                leaf.entries = first;
                let mark = leaf.mark;
                Content::Leaf(Leaf { mark, entries })
            }
            Content::Inner(children) => {
                let (first, second) = split(mem::take(children));
                *children = first;
                Content::Inner(second)
            }
        };
        let number = free.take_lowest();
        Some(Page { number, content })
    }

    /// Shows every page from this one down to `visitor`, a parent before its children.
    pub fn visit<'a>(&'a self, visitor: &mut impl FnMut(&'a Page)) {
        visitor(self);
        if let Content::Inner(children) = &self.content {
            for child in children {
                child.page.visit(visitor);
            }
        }
    }

    /// Collects the entries that meet the window, entering only boxes that meet it.
    pub fn gather(&self, window: Window, found: &mut Vec<Entry>) {
        match &self.content {
            Content::Leaf(leaf) => {
                let meeting = leaf.entries.iter().filter(|e| e.bbox.meets(window));
                found.extend(meeting);
            }
            Content::Inner(children) => {
                for child in children.iter().filter(|c| c.cover.meets(window)) {
                    child.page.gather(window, found);
                }
            }
        }
    }
}
