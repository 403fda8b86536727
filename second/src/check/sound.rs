//! 01's eight rules for a sound store, on a reading of its words.

use super::reading::{demand, Held, Kind, PageWords, Reading, Sides};
use std::collections::{BTreeMap, BTreeSet};

/// Complains with the number of the rule that is broken.
type Test = fn(&Reading) -> Result<(), String>;

const TESTS: [Test; 8] = [
    test_reach,
    test_place_counts,
    test_inner_pages,
    test_held,
    test_latest,
    test_slots,
    test_marks,
    test_boards,
];

/// Tests all rules, up to the first complaint.
pub fn test_sound(reading: &Reading) -> Result<(), String> {
    TESTS.iter().try_for_each(|test| test(reading))
}

/// The first complaint of each test.
pub fn broken_rules(reading: &Reading) -> Vec<String> {
    let verdicts = TESTS.iter().map(|test| test(reading));
    verdicts.filter_map(Result::err).collect()
}

/// Rule 1: the pages reached level by level from the root are just those that aren't free.
fn test_reach(reading: &Reading) -> Result<(), String> {
    let mut reached = BTreeSet::new();
    let mut row = vec![reading.root];
    for level in (1..=reading.levels).rev() {
        let expected = if level == 1 { Kind::Leaf } else { Kind::Inner };
        let mut next_row = Vec::new();
        for number in row {
            let page = &reading.pages[number as usize];
            demand(reached.insert(number), || {
                format!("rule 1: page {number} is reached twice")
            })?;
            demand(page.kind == expected, || {
                format!("rule 1: page {number} has the wrong kind for its level")
            })?;
            if page.kind == Kind::Inner {
                next_row.extend(page.places.iter().map(|place| place[4]));
            }
        }
        row = next_row;
    }
    for (number, page) in (0..).zip(&reading.pages) {
        demand(page.kind == Kind::Free || reached.contains(&number), || {
            format!("rule 1: page {number} is not reached")
        })?;
    }
    Ok(())
}

/// Rule 2: no page has too few places; the layout allows no more than 8.
fn test_place_counts(reading: &Reading) -> Result<(), String> {
    for (number, page) in (0..).zip(&reading.pages) {
        let fewest = match (page.kind, number == reading.root) {
            (Kind::Free, _) | (Kind::Leaf, true) => 0,
            (Kind::Inner, true) => 2,
            (_, false) => 4,
        };
        demand(page.places.len() >= fewest, || {
            format!("rule 2: page {number} has too few places")
        })?;
    }
    Ok(())
}

/// Rule 3, and the part of rule 7 on the mark of an inner page.
fn test_inner_pages(reading: &Reading) -> Result<(), String> {
    let pages = reading.pages.iter().enumerate();
    for (number, page) in pages.filter(|(_, page)| page.kind == Kind::Inner) {
        demand(page.mark == 0, || {
            format!("rule 7: inner page {number} has a mark")
        })?;
        for &[x0, y0, x1, y1, child, _] in &page.places {
            let cover = smallest_cover(&reading.pages[child as usize]);
            demand(cover == Some([x0, y0, x1, y1]), || {
                format!("rule 3: page {number} has a wrong box for page {child}")
            })?;
        }
    }
    Ok(())
}

fn smallest_cover(page: &PageWords) -> Option<Sides> {
    let side = |word: usize| page.places.iter().map(move |place| place[word]);
    Some([
        side(0).min()?,
        side(1).min()?,
        side(2).max()?,
        side(3).max()?,
    ])
}

/// Rule 4: not too many entries, with distinct stamps below the next one.
fn test_held(reading: &Reading) -> Result<(), String> {
    let mut stamps = BTreeSet::new();
    for (_, entry) in reading.held() {
        let stamp = entry.stamp;
        demand(stamp >= 1 && stamp < reading.next_stamp, || {
            format!("rule 4: stamp {stamp} out of range")
        })?;
        demand(stamps.insert(stamp), || {
            format!("rule 4: stamp {stamp} is held twice")
        })?;
    }
    demand(stamps.len() <= 3 * reading.pages.len(), || {
        "rule 4: too many entries".into()
    })
}

/// Rule 5: at most one latest entry a train, and none above its slot's stamp.
fn test_latest(reading: &Reading) -> Result<(), String> {
    let mut latest = BTreeSet::new();
    for (_, entry) in reading.held() {
        let Held { train, stamp, .. } = entry;
        let first = !reading.is_latest(&entry) || latest.insert(train);
        demand(first, || {
            format!("rule 5: train {train} has two latest entries")
        })?;
        let slot = reading.slots.get(&train);
        demand(slot.is_none_or(|slot| stamp <= slot.stamp), || {
            format!("rule 5: train {train} has a stamp above its slot's")
        })?;
    }
    Ok(())
}

/// Rule 6: a slot's stamp and old count.
fn test_slots(reading: &Reading) -> Result<(), String> {
    let mut obsolete: BTreeMap<u32, u32> = BTreeMap::new();
    for (_, entry) in reading.held() {
        if !reading.is_latest(&entry) {
            *obsolete.entry(entry.train).or_default() += 1;
        }
    }
    for (train, slot) in &reading.slots {
        demand(slot.stamp >= 1 && slot.stamp < reading.next_stamp, || {
            format!("rule 6: the slot of train {train} has a stamp out of range")
        })?;
        let fewest = obsolete.get(train).copied().unwrap_or(0).max(1);
        demand((fewest..=slot.stamp).contains(&slot.old_count), || {
            format!("rule 6: the slot of train {train} has a wrong old count")
        })?;
    }
    Ok(())
}

/// Rule 7: leaf marks, and no obsolete entry that an inspect could bring back.
fn test_marks(reading: &Reading) -> Result<(), String> {
    for (number, leaf) in reading.leaves() {
        demand((1..=reading.next_stamp).contains(&leaf.mark), || {
            format!("rule 7: leaf {number} has a mark out of range")
        })?;
        for entry in leaf.entries() {
            let slot = reading.slots.get(&entry.train);
            let obsolete = slot.filter(|slot| slot.stamp != entry.stamp);
            demand(obsolete.is_none_or(|slot| leaf.mark <= slot.stamp), || {
                format!("rule 7: leaf {number} holds an obsolete entry below its mark")
            })?;
        }
    }
    Ok(())
}

/// Rule 8: each open board has exactly the rows that a query of its window gives.
fn test_boards(reading: &Reading) -> Result<(), String> {
    let latest = reading.latest_boxes();
    for (number, board) in reading.open_boards() {
        let rows = super::within(&latest, board.window);
        demand(board.rows == rows, || {
            format!("rule 8: board {number} has wrong rows")
        })?;
    }
    Ok(())
}
