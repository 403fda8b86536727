//! Full pages beside a page that gets thin: putting its rest back splits its neighbours and with
//! them the root, in the middle of a clean.

use super::random::Random;
use super::script::Script;
use crate::geometry::Bbox;
use crate::page::Content;
use crate::places::MOST_PLACES;
use crate::tree::Tree;

/// Pages that hold the 64 entries of eight full leaves.
pub const FEWEST_PAGES: u32 = 22;

/// Metres between two trains of the first row.
const APART: u32 = 1_000;

/// Trains from here on stand among the first row.
const LATER: u32 = 1_000;

/// Packs eight leaves under the root of a fresh tree and thins one of them.
pub fn pack_leaves(random: &mut Random, script: &mut Script) {
    report_row(script, 36);
    for train in 1..=28 {
        let (leaf, place) = ((train - 1) / 4, (train - 1) % 4);
        // The fourth would stand to the right of its leaf, so it goes beside the second.
        let x = [1_400, 2_400, 3_400, 2_600][place as usize];
        script.report(LATER + train, at(4 * leaf * APART + x));
    }
    let leaf = random.within(1..=6);
    let [first, last] = [4 * leaf + 1, 4 * leaf + 4];
    for train in first + 1..last {
        script.withdraw(train);
    }
    let stays = random.within(first..=last);
    for train in (first..=last).filter(|&train| train != stays) {
        script.withdraw(LATER + train);
    }
    for _ in 0..random.within(leaf..=12) {
        script.clean();
    }
}

/// Gives a fresh tree eight inner pages under its root, packs two and thins the one between by
/// its last leaf: that splits the right neighbour, then its first leaf splits the left one and
/// the root, while more leaves wait to be put back.
pub fn pack_inner_pages(random: &mut Random, script: &mut Script) {
    report_row(script, 148);
    let between = random.within(1..=6);
    let mut later = LATER;
    for neighbour in [between - 1, between + 1] {
        while let Some(leaf) = leaf_with_room(&script.store.tree, neighbour as usize) {
            later += 1;
            let [x0, _, x1, _] = leaf.sides();
            if script.is_full() {
                return;
            }
            script.report(later, at(random.within(x0..=x1 - 10)));
        }
    }
    let last = 16 * between + 16;
    for train in last - random.within(0..=2)..=last {
        script.withdraw(train);
    }
    for _ in 0..60 {
        script.clean();
    }
}

/// A row from left to right; it leaves 4 places in each page but the last of each level.
fn report_row(script: &mut Script, trains: u32) {
    for train in 1..=trains {
        script.report(train, at(train * APART));
    }
}

fn at(x: u32) -> [u32; 4] {
    [x, 5, x + 10, 15]
}

/// The emptiest leaf under a child of the root, unless this has eight full leaves.
fn leaf_with_room(tree: &Tree, child: usize) -> Option<Bbox> {
    let Content::Inner(children) = &tree.root.content else {
        return None;
    };
    let Content::Inner(leaves) = &children.get(child)?.page.content else {
        return None;
    };
    let emptiest = leaves.iter().min_by_key(|leaf| leaf.page.place_count())?;
    let full = emptiest.page.place_count() == MOST_PLACES && leaves.len() == MOST_PLACES;
    (!full).then_some(emptiest.cover)
}
