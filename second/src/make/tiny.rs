//! Small stores with steps of all kinds, many of them refused.

use super::random::Random;
use super::script::Script;

/// Every other input has the 6 pages that 17 rows need: 5 hold 15 entries at most.
pub fn make(random: &mut Random, steps: usize) -> Script {
    if random.once_in(2) {
        return crowded(random, steps);
    }
    let counts = [
        random.within(1..=5),
        random.within(1..=8),
        random.within(0..=3),
    ];
    let mut script = Script::new(counts, steps);
    let trains = random.within(2..=10);
    while !script.is_full() {
        mixed_step(random, &mut script, trains);
    }
    script
}

/// Fills boards with 16 rows again and again and asks for a 17th.
fn crowded(random: &mut Random, steps: usize) -> Script {
    let boards = random.within(2..=4);
    let mut script = Script::new([6, random.within(17..=24), boards], steps);
    while !script.is_full() {
        for board in 0..boards {
            script.close(board);
        }
        let trains: Vec<u32> = (1..=17).map(|n| n + random.within(0..=1)).collect();
        let (early, late) = trains.split_at(random.within(0..=16) as usize);
        for &train in early {
            crowded_report(random, &mut script, train);
        }
        script.open(0, [0, 0, 9, 9]);
        for &train in late {
            crowded_report(random, &mut script, train);
        }
        script.open(1, [0, 0, 8, 9]);
        for _ in 0..random.within(5..=20) {
            mixed_step(random, &mut script, 20);
        }
    }
    script
}

/// Reports a train inside the crowded window, making room first where that is needed.
fn crowded_report(random: &mut Random, script: &mut Script, train: u32) {
    if !script.has_room() {
        script.clean();
        script.clean();
        script.inspect();
    }
    let sides = random.sides(0..=9);
    script.report(train, sides);
}

/// Any step, now and then with a fault in it; gives its number.
pub fn mixed_step(random: &mut Random, script: &mut Script, trains: u32) -> u32 {
    let boards = script.store.shape.boards;
    let train = random.within(1..=trains);
    let board = random.within(0..=boards.saturating_sub(1));
    let sides = random.sides(0..=9);
    match random.within(1..=20) {
        1..=8 => script.report(train, sides),
        9 | 10 => script.withdraw(train),
        11..=13 => script.clean(),
        14 => script.inspect(),
        15 | 16 => script.open(board, sides),
        17 => script.close(board),
        _ => script.step(faulty(random, [train, board], sides)),
    }
}

/// A step with one or two faults of the kinds 6 to 9.
fn faulty(random: &mut Random, [train, board]: [u32; 2], sides: [u32; 4]) -> [u32; 6] {
    let [x0, y0, x1, y1] = sides;
    let far = random.pick(&[1_048_576, u32::MAX]);
    let kind = random.pick(&[0, 7, 8, 99, u32::MAX]);
    let faults = [
        [kind, train, x0, y0, x1, y1],
        [2, train, 0, 0, 0, 1],
        [3, train, 0, 0, 0, 0],
        [4, 0, x0 + 1, 0, 0, 0],
        [6, board, 0, 0, y1 + 1, 0],
        [1, 0, x0, y0, x1, y1],
        [2, 0, 0, 0, 0, 0],
        [1, 0, x1 + 1, y0, x0, y1],
        [1, train, x1 + 1, y0, x0, y1],
        [1, train, x0, y1 + 1, x1, y0],
        [1, train, x0, y0, far, y1],
        [5, board, x0, y0, x1, far],
        [5, board, x1 + 1, y0, x0, y1],
        [5, 40, x0, y1 + 1, x1, y0],
        [5, 40, x0, y0, x1, y1],
        [6, far, 0, 0, 0, 0],
    ];
    random.pick(&faults)
}
