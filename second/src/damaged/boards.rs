//! Boards: their words, and rule 8.

use super::bases::boards;
use super::lent::Lent;
use super::{unsound, Damage};

/// The first coordinate past the map.
const PAST: u32 = 1_048_576;

pub const DAMAGES: &[Damage] = &[
    // board 1, which is closed, not zero: its window, its row count, its rows
    unsound(&["closed, not zero"], boards, |s| s.set(s.board(1), 1)),
    unsound(&["closed, not zero"], boards, |s| s.set(s.board(1) + 3, 1)),
    unsound(&["closed, not zero"], boards, |s| s.set(s.board(1) + 5, 1)),
    unsound(&["closed, not zero"], boards, |s| s.set(s.row(1, 0), 1)),
    unsound(&["closed, not zero"], boards, |s| s.set(s.board(2) - 1, 1)),
    unsound(&["open word 2"], boards, |s| s.set(s.board(0) + 4, 2)),
    unsound(&["open word 2"], boards, |s| s.set(s.board(1) + 4, 2)),
    unsound(&["row count 17"], boards, |s| s.set(s.board(0) + 5, 17)),
    unsound(&["row count"], boards, |s| s.set(s.board(0) + 5, u32::MAX)),
    unsound(&["unused row"], boards, |s| s.set(s.row(0, 2), 1)),
    unsound(&["unused row"], boards, |s| s.set(s.board(1) - 1, 1)),
    // a window that is not proper and that no train meets
    unsound(&["window not proper"], boards, |s| {
        s.put(s.board(1), &[900, 900, 899, 900, 1])
    }),
    unsound(&["window not proper"], boards, |s| {
        s.put(s.board(1), &[900, 900, 900, 899, 1])
    }),
    unsound(&["window not proper"], boards, |s| {
        s.put(s.board(1), &[900, 900, PAST, 900, 1])
    }),
    unsound(&["window not proper"], boards, |s| {
        s.put(s.board(1), &[900, 900, 900, PAST, 1])
    }),
    // rule 8: a row missing, the first and the last
    unsound(&["rule 8"], boards, |s| {
        s.close_gap(s.row(0, 0)..s.row(0, 1), s.board(1));
        s.set(s.board(0) + 5, 1);
    }),
    unsound(&["rule 8"], boards, |s| {
        s.set(s.board(0) + 5, 1);
        s.put(s.row(0, 1), &[0; 5]);
    }),
    // a row too many: train 8 at its old place, and at its present one outside the window; train 9, which is withdrawn
    unsound(&["rule 8"], boards, |s| {
        s.set(s.board(0) + 5, 3);
        s.put(s.row(0, 2), &[8, 50, 50, 50, 50]);
    }),
    unsound(&["rule 8"], boards, |s| {
        s.set(s.board(0) + 5, 3);
        s.put(s.row(0, 2), &[8, 400, 400, 402, 402]);
    }),
    unsound(&["rule 8"], boards, |s| {
        s.set(s.board(0) + 5, 3);
        s.put(s.row(0, 2), &[9, 50, 50, 50, 50]);
    }),
    // not ascending: the rows exchanged, a row twice
    unsound(&["trains not ascending"], boards, |s| {
        s.put(s.row(0, 0), &[7, 30, 30, 30, 30, 5, 10, 10, 12, 12])
    }),
    unsound(&["trains not ascending"], boards, |s| {
        s.set(s.board(0) + 5, 3);
        s.put(s.row(0, 2), &[7, 30, 30, 30, 30]);
    }),
    // another train, and another box by each side
    unsound(&["rule 8"], boards, |s| s.set(s.row(0, 1), 6)),
    unsound(&["rule 8"], boards, |s| s.set(s.row(0, 1) + 1, 29)),
    unsound(&["rule 8"], boards, |s| s.set(s.row(0, 1) + 2, 29)),
    unsound(&["rule 8"], boards, |s| s.set(s.row(0, 1) + 3, 31)),
    unsound(&["rule 8"], boards, |s| s.set(s.row(0, 1) + 4, 31)),
    // a window that no longer reaches train 7, and one that reaches train 7's old box but not its new one
    unsound(&["rule 8"], boards, |s| s.put(s.board(0), &[0, 0, 29, 29])),
    unsound(&["rule 8"], boards, |s| {
        s.put(
            s.board(1),
            &[200, 200, 200, 200, 1, 1, 7, 200, 200, 200, 200],
        );
    }),
    // train 8 listed by a window that is past it on each side
    unsound(&["rule 8"], boards, |s| list_8(s, [403, 400, 410, 402])),
    unsound(&["rule 8"], boards, |s| list_8(s, [390, 400, 399, 402])),
    unsound(&["rule 8"], boards, |s| list_8(s, [400, 403, 402, 410])),
    unsound(&["rule 8"], boards, |s| list_8(s, [400, 390, 402, 399])),
    // an open board of a window with trains, without rows
    unsound(&["rule 8"], boards, |s| {
        s.put(s.board(1), &[30, 30, 30, 30, 1])
    }),
];

/// Opens board 1 with the row of train 8 alone.
pub fn list_8(store: &mut Lent, window: [u32; 4]) {
    store.put(store.board(1), &window);
    store.put(store.board(1) + 4, &[1, 1, 8, 400, 400, 402, 402]);
}
