//! Steps with words from all 32 bits among sensible ones.

use super::random::Random;
use super::script::Script;
use super::tiny::mixed_step;

/// Words at the ends of their ranges.
const EDGES: [u32; 9] = [
    0,
    1,
    7,
    32,
    1_048_575,
    1_048_576,
    2_147_483_648,
    u32::MAX - 1,
    u32::MAX,
];

pub fn make(random: &mut Random, steps: usize) -> Script {
    let counts = [
        random.pick(&[1, 3, 11, 43, 192]),
        random.pick(&[1, 10, 100, 1024]),
        random.pick(&[0, 1, 5, 32]),
    ];
    let mut script = Script::new(counts, steps);
    while !script.is_full() {
        match random.within(1..=8) {
            1 => script.step(std::array::from_fn(|_| random.word())),
            2 => script.step(std::array::from_fn(|_| random.pick(&EDGES))),
            3 => script.step(random_but_kind(random)),
            4 => script.step(with_one_wild_word(random)),
            5 => script.report(random.word(), random.sides(0..=1_048_575)),
            _ => mixed_step(random, &mut script, 60),
        };
    }
    script
}

fn random_but_kind(random: &mut Random) -> [u32; 6] {
    let kind = random.within(0..=7);
    let [_, rest @ ..]: [u32; 6] = std::array::from_fn(|_| random.word());
    let [a, x0, y0, x1, y1] = rest;
    [kind, a, x0, y0, x1, y1]
}

fn with_one_wild_word(random: &mut Random) -> [u32; 6] {
    let [x0, y0, x1, y1] = random.sides(0..=1_048_575);
    let sensible = [
        [1, random.within(1..=60), x0, y0, x1, y1],
        [2, random.within(1..=60), 0, 0, 0, 0],
        [3, 0, 0, 0, 0, 0],
        [4, 0, 0, 0, 0, 0],
        [5, random.within(0..=4), x0, y0, x1, y1],
        [6, random.within(0..=4), 0, 0, 0, 0],
    ];
    let mut step = random.pick(&sensible);
    let place = random.within(0..=5) as usize;
    step[place] = if random.once_in(2) {
        random.word()
    } else {
        random.pick(&EDGES)
    };
    step
}
