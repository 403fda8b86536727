//! The largest store, filled with so many trains that the tree gets four levels.

use super::packed::pack_inner_pages;
use super::random::Random;
use super::script::Script;
use crate::geometry::{Window, LAST_METRE};

/// How the boxes of an input lie.
#[derive(Clone, Copy)]
enum Lie {
    Points,
    SmallBoxes,
    AllSizes,
    LineAlongX,
    LineAlongY,
    FlatLine,
    Grid,
    Clusters,
}

const LIES: [Lie; 8] = [
    Lie::Points,
    Lie::SmallBoxes,
    Lie::AllSizes,
    Lie::LineAlongX,
    Lie::LineAlongY,
    Lie::FlatLine,
    Lie::Grid,
    Lie::Clusters,
];

pub fn make(random: &mut Random, steps: usize) -> Script {
    let boards = random.within(0..=4);
    let mut script = Script::new([192, 1024, boards], steps);
    let lie = random.pick(&LIES);
    // One input in three stops growing at four levels and then keeps changing.
    let enough = if random.once_in(3) { 150 } else { 570 };
    if random.once_in(4) {
        pack_inner_pages(random, &mut script);
    }
    let mut trains = 0;
    while !script.is_full() {
        let tree = &script.store.tree;
        if tree.held() >= enough && tree.levels == 4 {
            change(random, &mut script);
        }
        if random.once_in(10) {
            any_step(random, &mut script, trains);
            continue;
        }
        let lie = random.pick(&[lie, lie, lie, lie, lie, lie, Lie::Points, Lie::AllSizes]);
        trains += 1;
        let sides = sides_of(random, lie, trains);
        script.report(spread(trains), sides);
    }
    script
}

/// A step of any kind on one of the trains seen so far.
fn any_step(random: &mut Random, script: &mut Script, trains: u32) {
    let train = spread(random.within(1..=trains.max(1)));
    let board = random.within(0..=4);
    match random.within(1..=10) {
        1..=3 => script.report(train, sides_of(random, Lie::SmallBoxes, 0)),
        4 => script.withdraw(train),
        5 | 6 => script.clean(),
        7 => script.inspect(),
        8 => script.close(board),
        _ => script.open(board, small_window(random)),
    };
}

/// Takes a run of neighbouring trains away or moves them, then cleans.
fn change(random: &mut Random, script: &mut Script) {
    let live = script.store.query(Window::WHOLE_MAP);
    let mut live: Vec<_> = live.iter().map(|(t, b)| (b.sides(), t.0)).collect();
    live.sort();
    let first = random.within(0..=live.len() as u32) as usize;
    let length = random.within(1..=40) as usize;
    let moves = random.once_in(2);
    for &(_, train) in live.iter().skip(first).take(length) {
        if moves {
            let lie = random.pick(&LIES);
            script.report(train, sides_of(random, lie, train % 500));
        } else {
            script.withdraw(train);
        }
    }
    for _ in 0..random.within(1..=40) {
        script.clean();
    }
}

/// Train numbers all over their range, in no order, the first ones small.
fn spread(train: u32) -> u32 {
    if train.is_multiple_of(3) {
        return train;
    }
    train.wrapping_mul(2_654_435_761) | 1
}

fn small_window(random: &mut Random) -> [u32; 4] {
    let x = random.within(0..=LAST_METRE - 30_000);
    let y = random.within(0..=LAST_METRE - 30_000);
    let width = random.within(0..=30_000);
    [x, y, x + width, y + random.within(0..=30_000)]
}

/// A box of this lie; `index` rises from report to report.
fn sides_of(random: &mut Random, lie: Lie, index: u32) -> [u32; 4] {
    let x = random.within(0..=LAST_METRE);
    let y = random.within(0..=LAST_METRE);
    let size = random.within(0..=2_000);
    let ahead = (index * 1_700 + random.within(0..=50)).min(LAST_METRE);
    match lie {
        Lie::Points => [x, y, x, y],
        Lie::SmallBoxes => grown([x, y], [size, size / 3]),
        Lie::AllSizes => random.sides(0..=LAST_METRE),
        Lie::LineAlongX => grown([ahead, 5], [30, 30]),
        Lie::LineAlongY => grown([size, ahead], [size, size]),
        Lie::FlatLine => [ahead, 5, ahead, 5],
        Lie::Grid => grown([x / 65_536 * 65_536, y / 65_536 * 65_536], [65_536, 65_536]),
        Lie::Clusters => {
            let home = index % 7 * 149_000;
            grown([home + size, home + x % 3_000], [size / 9, y % 40])
        }
    }
}

/// The box from a corner on, cut off at the edge of the map.
fn grown([x, y]: [u32; 2], [width, height]: [u32; 2]) -> [u32; 4] {
    let end = |from: u32, by: u32| (from + by).min(LAST_METRE);
    [x, y, end(x, width), end(y, height)]
}
