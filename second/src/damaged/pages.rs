//! Pages: their words, and rules 1 to 3.

use super::bases::{deep, fresh, leaf, split};
use super::{unsound, Damage};

/// The first coordinate past the map.
const PAST: u32 = 1_048_576;

pub const DAMAGES: &[Damage] = &[
    // a page's words; leaf has a free page 1, and split has root 2
    unsound(&["kind 3"], leaf, |s| s.set(s.page(1), 3)),
    unsound(&["count 9"], leaf, |s| s.set(s.page(0) + 1, 9)),
    unsound(&["count"], leaf, |s| s.set(s.page(0) + 1, u32::MAX)),
    unsound(&["fourth word"], leaf, |s| s.set(s.page(0) + 3, 1)),
    unsound(&["fourth word"], leaf, |s| s.set(s.page(1) + 3, 1)),
    unsound(&["unused place"], leaf, |s| s.set(s.place(0, 6), 1)),
    unsound(&["unused place"], leaf, |s| s.set(s.page(1) - 1, 1)),
    unsound(&["unused place"], split, |s| s.set(s.place(2, 2) + 4, 1)),
    unsound(&["free with a place"], leaf, |s| s.set(s.page(1) + 1, 1)),
    unsound(&["free with a mark"], leaf, |s| s.set(s.page(1) + 2, 1)),
    unsound(&["unused place"], leaf, |s| s.set(s.place(1, 0), 1)),
    unsound(&["unused place"], leaf, |s| s.set(s.page(2) - 1, 1)),
    unsound(&["no child"], split, |s| s.set(s.place(2, 1) + 5, 1)),
    unsound(&["no child"], split, |s| s.set(s.place(2, 1) + 4, 4)),
    unsound(&["no child"], split, |s| s.set(s.place(2, 1) + 4, u32::MAX)),
    unsound(&["train 0"], leaf, |s| s.set(s.place(0, 4) + 4, 0)),
    unsound(&["box not proper"], leaf, |s| s.set(s.place(0, 3), 51)),
    unsound(&["box not proper"], leaf, |s| s.set(s.place(0, 3) + 1, 51)),
    unsound(&["box not proper"], leaf, |s| {
        s.set(s.place(0, 3) + 2, PAST)
    }),
    unsound(&["box not proper"], leaf, |s| {
        s.set(s.place(0, 3) + 3, PAST)
    }),
    // rule 1
    unsound(&["rule 1"], fresh, |s| s.free_page(0)),
    unsound(&["rule 1"], fresh, |s| s.words[3] = 2),
    unsound(&["rule 1"], leaf, |s| s.words[3] = 5),
    unsound(&["rule 1"], deep, |s| s.words[3] = 2),
    unsound(&["rule 1"], deep, |s| s.words[3] = 4),
    // leaf 1 twice under the root
    unsound(&["reached twice"], split, |s| {
        let place = std::array::from_fn(|word| s.words[s.place(2, 1) + word]);
        s.add_place(2, place);
    }),
    // the root as its own child's child
    unsound(&["rule 1", "rule 3"], deep, |s| {
        s.set(s.place(2, 0) + 4, 11)
    }),
    // a sound leaf that nothing names
    unsound(&["page 3 is not reached"], split, |s| {
        s.put(s.page(3), &[1, 0, 1]);
        for train in 101..=104 {
            s.add_place(3, [500, 0, 500, 0, train, s.words[1]]);
            s.words[1] += 1;
        }
    }),
    // the free page named by the root, with the box of no places
    unsound(&["rule 1", "rule 3"], split, |s| {
        s.add_place(2, [0, 0, 0, 0, 3, 0])
    }),
    // the last leaf beside its parent instead of below it
    unsound(&["wrong kind for its level"], deep, |s| {
        let leaf = std::array::from_fn(|word| s.words[s.place(10, 4) + word]);
        s.drop_place(10, 4);
        s.put(s.place(11, 1), &s.cover(10));
        s.add_place(11, leaf);
    }),
    // rule 2: a leaf of three, an inner page of three, an inner root of one and of none
    unsound(&["rule 2: page 1"], split, |s| s.drop_place(1, 1)),
    unsound(&["rule 2: page 2"], deep, |s| {
        let child = s.words[s.place(2, 1) + 4] as usize;
        s.drop_place(2, 1);
        s.free_page(child);
    }),
    unsound(&["rule 2: page 2"], split, |s| {
        s.drop_place(2, 1);
        s.free_page(1);
    }),
    unsound(&["rule 2: page 0"], fresh, |s| {
        s.words[3] = 2;
        s.put(s.page(0), &[2, 0, 0]);
    }),
    // rule 3: each side of leaf 1's box too far out and too far in; the box of an inner page
    unsound(&["rule 3"], split, |s| s.set(s.place(2, 1), 499)),
    unsound(&["rule 3"], split, |s| s.set(s.place(2, 1), 501)),
    unsound(&["rule 3"], split, |s| s.set(s.place(2, 1) + 1, 4)),
    unsound(&["rule 3"], split, |s| s.set(s.place(2, 1) + 1, 6)),
    unsound(&["rule 3"], split, |s| s.set(s.place(2, 1) + 2, 911)),
    unsound(&["rule 3"], split, |s| s.set(s.place(2, 1) + 2, 909)),
    unsound(&["rule 3"], split, |s| s.set(s.place(2, 1) + 3, 16)),
    unsound(&["rule 3"], split, |s| s.set(s.place(2, 1) + 3, 14)),
    unsound(&["rule 3"], deep, |s| s.set(s.place(11, 0) + 2, 170)),
];
