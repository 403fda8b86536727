//! Stores that are sound, many of them just so.

use super::bases::{boards, deep, fresh, leaf, split};
use super::boards::list_8;
use super::lent::Lent;
use super::{sound, Damage};

const LAST: u32 = 1_048_575;

fn largest() -> Lent {
    Lent::after([192, 1_024, 32], [])
}

pub const EDGES: &[Damage] = &[
    sound(fresh, |_| ()),
    sound(leaf, |_| ()),
    sound(split, |_| ()),
    sound(deep, |_| ()),
    sound(largest, |_| ()),
    // the last stamp, and a mark that is the next stamp
    sound(fresh, |s| s.words[1] = u32::MAX),
    sound(fresh, |s| s.set(s.page(0) + 2, s.words[1])),
    // a box over the whole map, and a point in its corner
    sound(leaf, |s| s.put(s.place(0, 1), &[0, 0, LAST, LAST])),
    sound(leaf, |s| s.put(s.place(0, 1), &[LAST; 4])),
    // the largest train, and the largest stamp below the next
    sound(leaf, |s| s.set(s.slot(2), u32::MAX)),
    sound(leaf, |s| s.set(s.place(0, 0) + 5, s.words[1] - 1)),
    // an old count that is its stamp, and one that is the number of obsolete entries held
    sound(leaf, |s| s.set(s.slot(2) + 2, 7)),
    sound(leaf, |s| s.set(s.slot(1) + 2, 2)),
    // a mark that is the stamp of an obsolete entry's slot
    sound(leaf, |s| s.set(s.page(0) + 2, 3)),
    // a memo with every slot used
    sound(leaf, |s| s.put(s.slot(3), &[10, 1, 1])),
    // a root leaf with eight places
    sound(full_leaf, |_| ()),
    // a window that touches train 8 on each side
    sound(boards, |s| list_8(s, [402, 400, 410, 402])),
    sound(boards, |s| list_8(s, [390, 400, 400, 402])),
    sound(boards, |s| list_8(s, [400, 402, 402, 410])),
    sound(boards, |s| list_8(s, [400, 390, 402, 400])),
    // a board of sixteen rows, and one of the whole map
    sound(full_board, |_| ()),
    sound(leaf, |s| {
        s.put(s.board(0), &[0, 0, LAST, LAST, 1, 3]);
        s.put(s.row(0, 2), &[8, 400, 400, 402, 402]);
    }),
];

/// Eight entries just before a split.
fn full_leaf() -> Lent {
    Lent::after(
        [3, 8, 0],
        (1..=8).map(|train| [1, train, train, 0, train, 0]),
    )
}

/// Sixteen trains at one point, on board 1.
fn full_board() -> Lent {
    let reports = (1..=16).map(|train| [1, train, 9, 9, 9, 9]);
    Lent::after([6, 16, 2], reports.chain([[5, 1, 9, 9, 9, 9]]))
}
