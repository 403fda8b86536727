//! Held entries, memo and marks: rules 4 to 7.

use super::bases::{leaf, split};
use super::{unsound, Damage};

pub const DAMAGES: &[Damage] = &[
    // rule 4: one entry too many; a stamp twice, 0, and the next one
    unsound(&["rule 4: too many"], leaf, |s| {
        s.add_place(0, [500, 500, 500, 500, 11, s.words[1]]);
        s.words[1] += 1;
    }),
    unsound(&["stamp 5 is held twice"], leaf, |s| {
        s.set(s.place(0, 3) + 5, 5)
    }),
    unsound(&["stamp 5 is held twice"], split, |s| {
        s.set(s.place(0, 0) + 5, 5)
    }),
    unsound(&["rule 4: stamp 0"], leaf, |s| s.set(s.place(0, 3) + 5, 0)),
    unsound(&["rule 4: stamp 8"], leaf, |s| s.set(s.place(0, 0) + 5, 8)),
    // rule 5: train 7 without its slot; a train twice in two leaves; train 8 with the stamp before its last one
    unsound(&["train 7 has two latest"], leaf, |s| {
        s.close_gap(s.slot(0)..s.slot(1), s.slot(4))
    }),
    unsound(&["train 5 has two latest"], split, |s| {
        s.set(s.place(0, 3) + 4, 5)
    }),
    unsound(&["train 8 has a stamp above"], leaf, |s| {
        s.set(s.slot(1) + 1, 5)
    }),
    // rule 6: the slot's stamp, and its old count
    unsound(&["stamp out of range"], leaf, |s| s.set(s.slot(2) + 1, 0)),
    unsound(&["stamp out of range"], leaf, |s| s.set(s.slot(2) + 1, 8)),
    unsound(&["stamp out of range"], leaf, |s| {
        s.set(s.slot(2) + 1, u32::MAX)
    }),
    unsound(&["wrong old count"], leaf, |s| s.set(s.slot(2) + 2, 0)),
    unsound(&["wrong old count"], leaf, |s| s.set(s.slot(1) + 2, 1)),
    unsound(&["wrong old count"], leaf, |s| s.set(s.slot(2) + 2, 8)),
    // the memo's order: slots exchanged, a train twice, a gap, a train of 0, waste behind
    unsound(&["trains not ascending"], leaf, |s| {
        s.put(s.slot(1), &[9, 7, 1, 8, 6, 3])
    }),
    unsound(&["trains not ascending"], leaf, |s| s.set(s.slot(2), 8)),
    unsound(&["a used slot after"], leaf, |s| {
        s.put(s.slot(2), &[0, 0, 0, 9, 7, 1])
    }),
    unsound(&["train 0 in a used slot"], leaf, |s| s.set(s.slot(2), 0)),
    unsound(&["train 0 in a used slot"], leaf, |s| {
        s.set(s.slot(3) + 1, 1)
    }),
    unsound(&["train 0 in a used slot"], leaf, |s| {
        s.set(s.slot(3) + 2, 1)
    }),
    // rule 7: a leaf's mark, an inner page's, and an obsolete entry under a mark above its slot's stamp
    unsound(&["rule 7: leaf 0"], leaf, |s| s.set(s.page(0) + 2, 0)),
    unsound(&["rule 7: leaf 1"], split, |s| s.set(s.page(1) + 2, 13)),
    unsound(&["rule 7: inner page 2"], split, |s| {
        s.set(s.page(2) + 2, 1)
    }),
    unsound(&["rule 7: leaf 0 holds"], leaf, |s| s.set(s.page(0) + 2, 4)),
    unsound(&["rule 7: leaf 0 holds"], split, |s| {
        s.set(s.page(0) + 2, 12)
    }),
];
