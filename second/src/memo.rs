//! The memo: for some trains the latest stamp and how many old entries may still be held.

use crate::counts::{Stamp, Train};
use crate::page::Entry;
use std::collections::BTreeMap;

#[derive(Clone, Copy, Debug, PartialEq, Eq)]
pub struct Slot {
    pub stamp: Stamp,
    pub old_count: u32,
}

#[derive(Clone, Debug)]
pub struct Memo {
    slots: BTreeMap<Train, Slot>,
    slot_count: usize,
}

impl Memo {
    /// An empty memo of `slot_count` slots.
    pub fn fresh(slot_count: usize) -> Memo {
        Memo {
            slots: BTreeMap::new(),
            slot_count,
        }
    }

    pub fn slots(&self) -> &BTreeMap<Train, Slot> {
        &self.slots
    }

    /// Whether the train has a slot or could get one.
    pub fn has_room_for(&self, train: Train) -> bool {
        self.slots.contains_key(&train) || self.slots.len() < self.slot_count
    }

    /// Notes that the train's latest stamp is this one, which makes one entry more old.
    pub fn note(&mut self, train: Train, stamp: Stamp) {
        let fresh = Slot {
            stamp,
            old_count: 0,
        };
        let slot = self.slots.entry(train).or_insert(fresh);
        slot.stamp = stamp;
        slot.old_count += 1;
    }

    /// An entry is latest if its train has no slot or its stamp equals the slot's.
    pub fn is_latest(&self, entry: &Entry) -> bool {
        let slot = self.slots.get(&entry.train);
        slot.is_none_or(|slot| slot.stamp == entry.stamp)
    }

    /// Counts one old entry of the train as removed and frees a slot that reaches 0.
    pub fn forget_one(&mut self, train: Train) {
        if let Some(slot) = self.slots.get_mut(&train) {
            slot.old_count -= 1;
            if slot.old_count == 0 {
                self.slots.remove(&train);
            }
        }
    }

    /// Frees each slot whose stamp is below the smallest leaf mark, and counts them.
    pub fn free_below(&mut self, smallest_mark: Stamp) -> usize {
        let before = self.slots.len();
        self.slots.retain(|_, slot| slot.stamp >= smallest_mark);
        before - self.slots.len()
    }
}
