//! The tree of pages under its root.

use crate::counts::{PageNumber, Stamp};
use crate::geometry::Window;
use crate::page::{Child, Content, Entry, FreePages, Leaf, Load, Page};
use std::collections::BTreeMap;
use std::mem;

/// Counts of rare events, kept so that a test can show that an input brings them about.
#[derive(Clone, Debug, Default)]
pub struct Happenings {
    pub most_levels: u32,
    pub root_splits: u32,
    pub root_collapses: u32,
    /// Splits of the root while a clean put things back.
    pub root_splits_by_clean: u32,
    /// Child pages put back after such a split, so under more levels than they came from.
    pub pages_under_new_root: u32,
    /// Pages freed because they were thin, by level; level 1 is that of the leaves.
    pub thin: BTreeMap<u32, u32>,
}

#[derive(Clone, Debug)]
pub struct Tree {
    pub root: Page,
    pub levels: u32,
    pub free: FreePages,
    pub happenings: Happenings,
}

impl Tree {
    /// The fresh tree: page 0 as an empty root leaf, every other page free.
    pub fn fresh(page_count: u32) -> Tree {
        let leaf = Leaf {
            mark: Stamp::FIRST,
            entries: Vec::new(),
        };
        Tree {
            root: Page {
                number: PageNumber(0),
                content: Content::Leaf(leaf),
            },
            levels: 1,
            free: FreePages::fresh(page_count),
            happenings: Happenings::default(),
        }
    }

    /// Puts a load in by the report's rule for places; over a split root comes a new one.
    pub fn put(&mut self, load: Load) {
        if let Some(second) = self.root.put(self.levels, load, &mut self.free) {
            let new_root = Page {
                number: self.free.take_lowest(),
                content: Content::Inner(Vec::new()),
            };
            let old_root = mem::replace(&mut self.root, new_root);
            let children = vec![Child::over(old_root), Child::over(second)];
            self.root.content = Content::Inner(children);
            self.levels += 1;
            self.happenings.root_splits += 1;
        }
        self.happenings.most_levels = self.happenings.most_levels.max(self.levels);
    }

    /// All held entries that meet the window, obsolete ones included.
    pub fn meeting(&self, window: Window) -> Vec<Entry> {
        let mut found = Vec::new();
        self.root.gather(window, &mut found);
        found
    }

    /// Mark and page number of every leaf.
    fn marks(&self) -> Vec<(Stamp, PageNumber)> {
        let mut marks = Vec::new();
        self.root.visit(&mut |page| {
            if let Content::Leaf(leaf) = &page.content {
                marks.push((leaf.mark, page.number));
            }
        });
        marks
    }

    /// The leaf with the smallest mark, lowest page number on a tie, and that mark.
    pub fn smallest_mark(&self) -> (Stamp, PageNumber) {
        let least = self.marks().into_iter().min();
        least.expect("a tree has a leaf")
    }

    /// How many entries are held.
    pub fn held(&self) -> usize {
        let mut held = 0;
        self.root.visit(&mut |page| {
            if let Content::Leaf(leaf) = &page.content {
                held += leaf.entries.len();
            }
        });
        held
    }
}
