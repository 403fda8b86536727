//! Fills a tree, makes whole neighbourhoods obsolete and cleans, again and again.

use super::packed::{pack_leaves, FEWEST_PAGES};
use super::random::Random;
use super::script::Script;
use crate::counts::Train;
use crate::geometry::Window;

/// Metres between the homes of neighbouring trains.
const APART: u32 = 1_000;

/// How a round fills the tree.
#[derive(Clone, Copy)]
enum Filling {
    /// From left to right in equal boxes: pages are left with 4 places, so trees get high.
    Even,
    /// From left to right in boxes of several sizes.
    Rough,
    /// In no order.
    Mixed,
}

pub fn make(random: &mut Random, steps: usize) -> Script {
    // Four levels need 50 pages or more, so half of the inputs have them.
    let pages = if random.once_in(2) {
        random.within(52..=60)
    } else {
        random.within(10..=51)
    };
    let slots = 3 * pages + random.within(0..=40);
    let mut script = Script::new([pages, slots, random.within(0..=2)], steps);
    for board in 0..script.store.shape.boards {
        script.open(board, [APART, 0, 9 * APART, 60]);
    }
    if pages >= FEWEST_PAGES && random.once_in(4) {
        pack_leaves(random, &mut script);
    } else {
        fill(random, &mut script, Filling::Even, 1);
    }
    while !script.is_full() {
        thin_out(random, &mut script);
        sweep(random, &mut script);
        let filling = random.pick(&[Filling::Even, Filling::Rough, Filling::Mixed]);
        let keep_free = random.pick(&[1, 2, pages / 3, pages / 2]);
        fill(random, &mut script, filling, keep_free);
    }
    script
}

/// Reports trains at their homes until the store has room for only that many entries more.
fn fill(random: &mut Random, script: &mut Script, filling: Filling, keep_free: u32) {
    let most = script.store.most_held() as u32;
    let mut trains: Vec<u32> = (1..=most).collect();
    if let Filling::Mixed = filling {
        random.shuffle(&mut trains);
    }
    for train in trains {
        if script.store.tree.held() as u32 + keep_free >= most {
            return;
        }
        script.report(train, home(random, filling, train));
    }
}

fn home(random: &mut Random, filling: Filling, train: u32) -> [u32; 4] {
    let x = train * APART;
    match filling {
        Filling::Even => [x, 5, x + 10, 15],
        Filling::Rough | Filling::Mixed => {
            let (width, height) = (random.within(0..=9), random.within(0..=9));
            [x, 5, x + width, 5 + height]
        }
    }
}

/// Takes runs of neighbouring trains away, or moves them off while there is room for that.
fn thin_out(random: &mut Random, script: &mut Script) {
    let live = script.store.query(Window::WHOLE_MAP);
    let live: Vec<u32> = live.keys().map(|&Train(number)| number).collect();
    let runs = random.pick(&[1, 1, 2, 5]);
    let longest = live.len() / runs;
    let moves = random.once_in(3);
    for run in 0..runs {
        for &train in live.iter().skip(run * longest).take(longest) {
            // A few stay, so that leaves get thin rather than empty.
            if random.once_in(6) {
                continue;
            }
            if moves && script.has_room() {
                let corner = random.within(900_000..=901_000);
                script.report(train, [corner, corner, corner + 3, corner]);
            } else {
                script.withdraw(train);
            }
        }
        if random.once_in(2) {
            sweep(random, script);
        }
    }
}

/// Cleans about as often as there are leaves, with an inspect now and then.
fn sweep(random: &mut Random, script: &mut Script) {
    let leaves = script.store.tree.held() as u32 / 4 + 1;
    for _ in 0..leaves + random.within(0..=leaves / 4) {
        script.clean();
        if random.once_in(9) {
            script.inspect();
        }
    }
    script.inspect();
}
