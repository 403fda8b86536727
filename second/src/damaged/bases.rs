//! The sound stores that are damaged.

use super::lent::Lent;

const CLEAN: [u32; 6] = [3, 0, 0, 0, 0, 0];
const INSPECT: [u32; 6] = [4, 0, 0, 0, 0, 0];

fn report(train: u32, [x0, y0, x1, y1]: [u32; 4]) -> [u32; 6] {
    [1, train, x0, y0, x1, y1]
}

fn withdraw(train: u32) -> [u32; 6] {
    [2, train, 0, 0, 0, 0]
}

/// A fresh store with a page, a slot and no board.
pub fn fresh() -> Lent {
    Lent::after([1, 1, 0], [])
}

/// A root leaf with all the entries that two pages may hold: 5, 7 obsolete, 7, 8 obsolete twice, 8; 5 has no slot. Of three
/// used slots the last is that of train 9, which was only withdrawn. Board 0 lists 5 and 7, and 8 was in its window before.
pub fn leaf() -> Lent {
    leaf_beside(0)
}

/// The same with a closed board 1.
pub fn boards() -> Lent {
    leaf_beside(1)
}

fn leaf_beside(closed: u32) -> Lent {
    Lent::after(
        [2, 4, 1 + closed],
        [
            [5, 0, 0, 0, 100, 100],
            report(5, [10, 10, 12, 12]),
            CLEAN,
            INSPECT,
            report(7, [200, 200, 200, 200]),
            report(7, [30, 30, 30, 30]),
            report(8, [50, 50, 50, 50]),
            report(8, [300, 300, 301, 301]),
            report(8, [400, 400, 402, 402]),
            withdraw(9),
        ],
    )
}

/// Root 2 over leaf 0 with trains 1 to 4, of which 3 is withdrawn, and leaf 1 with 5, 6, 8 and 9; page 3 is free, and
/// board 0 lists 1 and 2.
pub fn split() -> Lent {
    let reports = (1..=9).map(|train| report(train, [100 * train, 5, 100 * train + 10, 15]));
    let rest = [withdraw(7), CLEAN, CLEAN, INSPECT, withdraw(3)];
    let open = [5, 0, 90, 0, 220, 5];
    Lent::after([4, 9, 1], reports.chain(rest).chain([open]))
}

/// Root 11 over inner pages 2 with four leaves and 10 with five, along a row of 37 trains, of which 20 is withdrawn.
pub fn deep() -> Lent {
    let reports = (1..=37).map(|train| report(train, [10 * train, 0, 10 * train + 2, 2]));
    let steps = reports.flat_map(|step| [[step].as_slice(), &[CLEAN; 9], &[INSPECT]].concat());
    Lent::after([13, 1, 0], steps.chain([withdraw(20)]))
}
