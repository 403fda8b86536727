//! Cleaning: takes obsolete entries out of a leaf, frees thin pages and puts the rest back.

use crate::counts::{PageNumber, Stamp};
use crate::page::{Child, Content, Entry, Load, Page};
use crate::places::FEWEST_PLACES;
use crate::tree::Tree;
use std::mem;

/// One cleaning: what it is to do and what it has gathered on its way up.
struct Cleaning<'a> {
    target: PageNumber,
    new_mark: Stamp,
    is_obsolete: &'a dyn Fn(&Entry) -> bool,
    removed: Vec<Entry>,
    freed: Vec<(u32, PageNumber)>,
    to_put_back: Vec<Load>,
}

impl Cleaning<'_> {
    /// Cleans the target if it is `page` or below it, and tells whether it was there.
    fn clean_below(&mut self, page: &mut Page, level: u32) -> bool {
        match &mut page.content {
            Content::Leaf(_) if page.number != self.target => false,
            Content::Leaf(leaf) => {
                let all = mem::take(&mut leaf.entries);
                let (gone, kept) = all.into_iter().partition(self.is_obsolete);
                self.removed = gone;
                leaf.entries = kept;
                leaf.mark = self.new_mark;
                true
            }
            Content::Inner(children) => {
                let on_path = |child: &mut Child| self.clean_below(&mut child.page, level - 1);
                let Some(index) = children.iter_mut().position(on_path) else {
                    return false;
                };
                if children[index].page.place_count() < FEWEST_PLACES {
                    let thin = children.remove(index);
                    self.dissolve(thin.page, level - 1);
                } else {
                    children[index].cover = children[index].page.cover();
                }
                true
            }
        }
    }

    /// Frees a thin page; pages come here from the leaf upward, so the loads stand in order.
    fn dissolve(&mut self, page: Page, level: u32) {
        self.freed.push((level, page.number));
        match page.content {
            Content::Leaf(leaf) => {
                let entries = leaf.entries.into_iter();
                self.to_put_back.extend(entries.map(Load::Entry));
            }
            Content::Inner(children) => {
                let pages = children.into_iter();
                let loads = pages.map(|child| Load::Page(level - 1, child.page));
                self.to_put_back.extend(loads);
            }
        }
    }
}

impl Tree {
    /// Cleans the leaf with the smallest mark and gives the entries removed.
    pub fn clean(&mut self, new_mark: Stamp, is_obsolete: &dyn Fn(&Entry) -> bool) -> Vec<Entry> {
        let (_, target) = self.smallest_mark();
        let mut cleaning = Cleaning {
            target,
            new_mark,
            is_obsolete,
            removed: Vec::new(),
            freed: Vec::new(),
            to_put_back: Vec::new(),
        };
        cleaning.clean_below(&mut self.root, self.levels);
        for (level, page) in cleaning.freed {
            self.free.give_back(page);
            *self.happenings.thin.entry(level).or_default() += 1;
        }
        self.put_back(cleaning.to_put_back);
        self.let_root_give_way();
        cleaning.removed
    }

    fn put_back(&mut self, loads: Vec<Load>) {
        let before = self.happenings.root_splits;
        for load in loads {
            let new_root = self.happenings.root_splits > before;
            if new_root && matches!(load, Load::Page(..)) {
                self.happenings.pages_under_new_root += 1;
            }
            self.put(load);
        }
        self.happenings.root_splits_by_clean += self.happenings.root_splits - before;
    }

    /// An inner root with one child gives way to it.
    fn let_root_give_way(&mut self) {
        let Content::Inner(children) = &mut self.root.content else {
            return;
        };
        if children.len() > 1 {
            return;
        }
        if let Some(only) = children.pop() {
            let old_root = mem::replace(&mut self.root, only.page);
            self.free.give_back(old_root.number);
            self.levels -= 1;
            self.happenings.root_collapses += 1;
        }
    }
}
