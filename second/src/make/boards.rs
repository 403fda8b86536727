//! Thirty-two boards whose windows overlap and touch, with trains moving between them.

use super::random::Random;
use super::script::Script;

/// All sides lie on few lines, so that edges and corners often touch.
const LINES: [u32; 10] = [
    0, 1, 100, 200, 201, 300, 5_000, 524_288, 1_048_574, 1_048_575,
];

pub fn make(random: &mut Random, steps: usize) -> Script {
    let pages = random.within(8..=40);
    let slots = 3 * pages + random.within(0..=9);
    let mut script = Script::new([pages, slots, 32], steps);
    let trains = random.within(14..=40);
    for board in 0..random.within(8..=32) {
        script.open(board, on_lines(random));
    }
    while !script.is_full() {
        if !script.has_room() {
            make_room(&mut script);
        }
        let train = random.within(1..=trains);
        let board = random.within(0..=31);
        match random.within(1..=20) {
            1..=10 => script.report(train, train_sides(random)),
            11 | 12 => script.withdraw(train),
            13 => script.clean(),
            14 => script.inspect(),
            15..=17 => script.open(board, on_lines(random)),
            _ => script.close(board),
        };
    }
    script
}

fn make_room(script: &mut Script) {
    for _ in 0..4 {
        script.clean();
    }
    script.inspect();
}

/// Mostly points and short boxes, so that boards are not all full at once.
fn train_sides(random: &mut Random) -> [u32; 4] {
    let (x, y) = (random.pick(&LINES), random.pick(&LINES));
    match random.within(1..=4) {
        1 => on_lines(random),
        2 => [x, y, x.max(200), y],
        _ => [x, y, x, y],
    }
}

fn on_lines(random: &mut Random) -> [u32; 4] {
    let (a, b) = (random.pick(&LINES), random.pick(&LINES));
    let (c, d) = (random.pick(&LINES), random.pick(&LINES));
    [a.min(b), c.min(d), a.max(b), c.max(d)]
}
