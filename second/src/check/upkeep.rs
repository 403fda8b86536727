//! What clean and inspect may change: neither a board nor a latest entry.

use super::changes::Change;
use super::reading::{demand, Held, Kind, SlotWords};
use std::collections::{BTreeMap, BTreeSet};

impl Change<'_> {
    pub fn test_clean(&self) -> Result<(), String> {
        self.same_stamp()?;
        self.same_boards()?;
        self.same_latest()?;
        let leaves = self.before.leaves();
        let chosen = leaves.map(|(number, leaf)| (leaf.mark, number)).min();
        let (_, chosen) = chosen.ok_or("there is no leaf")?;
        let gone = |entry: &Held| !self.before.is_latest(entry);
        let (removed, kept): (Vec<_>, Vec<_>) = self
            .before
            .held()
            .partition(|(number, entry)| *number == chosen && gone(entry));
        let kept: BTreeSet<Held> = kept.into_iter().map(|(_, entry)| entry).collect();
        demand(self.after.held_set() == kept, || {
            format!("clean does not remove just the obsolete entries of leaf {chosen}")
        })?;
        self.test_memo(&self.lowered(removed.iter().map(|(_, entry)| entry.train)))?;
        self.test_cleaned_leaf(chosen, removed.len())?;
        self.test_marks(Some(chosen))?;
        self.test_count(removed.len())
    }

    fn same_latest(&self) -> Result<(), String> {
        let (before, after) = (self.before.latest_boxes(), self.after.latest_boxes());
        demand(before == after, || "the latest entries change".into())
    }

    /// The memo before with one old entry less for each of these trains.
    fn lowered(&self, trains: impl Iterator<Item = u32>) -> BTreeMap<u32, SlotWords> {
        let mut slots = self.before.slots.clone();
        for train in trains {
            if let Some(slot) = slots.get_mut(&train) {
                slot.old_count -= 1;
            }
        }
        slots.retain(|_, slot| slot.old_count > 0);
        slots
    }

    /// A leaf that stays has the new mark and its entries in order; else no leaf has it anew.
    fn test_cleaned_leaf(&self, chosen: u32, removed: usize) -> Result<(), String> {
        let before = &self.before.pages[chosen as usize];
        let after = &self.after.pages[chosen as usize];
        let left = before.places.len() - removed;
        if left >= 4 || chosen == self.before.root {
            let kept = before
                .entries()
                .filter(|entry| self.before.is_latest(entry));
            let right = after.mark == self.before.next_stamp && after.entries().eq(kept);
            demand(after.kind == Kind::Leaf && right, || {
                format!("leaf {chosen} is not as clean leaves it")
            })?;
            return self.same_other_leaves(chosen);
        }
        let others = self.before.leaves().filter(|&(number, _)| number != chosen);
        let marks: BTreeSet<u32> = others.map(|(_, leaf)| leaf.mark).collect();
        let mut leaves = self.after.leaves();
        demand(leaves.all(|(_, leaf)| marks.contains(&leaf.mark)), || {
            "a leaf has a mark that no other leaf had".into()
        })
    }

    /// Where no page is freed, no other leaf changes at all.
    fn same_other_leaves(&self, chosen: u32) -> Result<(), String> {
        for (number, leaf) in self.before.leaves() {
            let after = &self.after.pages[number as usize];
            demand(number == chosen || after.places == leaf.places, || {
                format!("leaf {number} changes though no page is thin")
            })?;
        }
        Ok(())
    }

    pub fn test_inspect(&self) -> Result<(), String> {
        self.same_stamp()?;
        self.same_pages()?;
        self.same_boards()?;
        self.same_latest()?;
        let smallest = self.before.smallest_mark();
        let mut slots = self.before.slots.clone();
        slots.retain(|_, slot| slot.stamp >= smallest);
        self.test_memo(&slots)?;
        for (_, entry) in self.before.held() {
            let freed = !self.after.slots.contains_key(&entry.train);
            demand(!freed || self.before.is_latest(&entry), || {
                format!("the slot of train {} goes too early", entry.train)
            })?;
        }
        self.test_count(self.before.slots.len() - self.after.slots.len())
    }
}
