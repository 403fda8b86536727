//! Numbers 1 and 2, and words 1 to 3.

use super::bases::{fresh, leaf, split};
use super::lent::Lent;
use super::{unsound, Damage};

const fn sizes(base: fn() -> Lent, change: fn(&mut Lent)) -> Damage {
    Damage {
        number: 1,
        complaints: &["words 5, 7 or 9 out of range"],
        base,
        change,
    }
}

const fn layout(complaints: &'static [&'static str], change: fn(&mut Lent)) -> Damage {
    Damage {
        number: 2,
        complaints,
        base: leaf,
        change,
    }
}

pub const DAMAGES: &[Damage] = &[
    sizes(leaf, |s| s.words[5] = 0),
    sizes(leaf, |s| s.words[5] = 193),
    sizes(leaf, |s| s.words[5] = u32::MAX),
    sizes(leaf, |s| s.words[7] = 0),
    sizes(leaf, |s| s.words[7] = 1_025),
    sizes(leaf, |s| s.words[7] = u32::MAX),
    sizes(leaf, |s| s.words[9] = 33),
    sizes(leaf, |s| s.words[9] = u32::MAX),
    // the lowest number, where the layout is wrong too, and with the fewest words that tell the sizes
    sizes(leaf, |s| s.put(4, &[0, 193])),
    sizes(fresh, |s| {
        s.words.truncate(16);
        s.words[7] = 0;
    }),
    layout(&["under 16 words"], |s| s.words.clear()),
    layout(&["under 16 words"], |s| s.words.truncate(1)),
    layout(&["under 16 words"], |s| s.words.truncate(15)),
    layout(&["wrong length"], |s| s.words.truncate(16)),
    layout(&["wrong length"], |s| s.words.push(0)),
    layout(&["wrong length"], |s| {
        s.words.pop();
    }),
    layout(&["wrong length"], |s| s.words[5] += 1),
    layout(&["wrong length"], |s| s.words[7] -= 1),
    layout(&["wrong length"], |s| s.words[9] -= 1),
    layout(&["wrong word 0, 4, 6 or 8"], |s| s.words[0] = 0),
    layout(&["wrong word 0, 4, 6 or 8"], |s| s.words[0] = 2),
    layout(&["wrong word 0, 4, 6 or 8"], |s| s.words[4] = 17),
    layout(&["wrong word 0, 4, 6 or 8"], |s| s.words[6] -= 1),
    layout(&["wrong word 0, 4, 6 or 8"], |s| s.words[8] += 86),
    layout(&["words 10 to 15"], |s| s.words[10] = 1),
    layout(&["words 10 to 15"], |s| s.words[11] = 1),
    layout(&["words 10 to 15"], |s| s.words[12] = 1),
    layout(&["words 10 to 15"], |s| s.words[13] = 1),
    layout(&["words 10 to 15"], |s| s.words[14] = 1),
    layout(&["words 10 to 15"], |s| s.words[15] = 1),
    unsound(&["word 1"], fresh, |s| s.words[1] = 0),
    unsound(&["word 2"], split, |s| s.words[2] = 4),
    unsound(&["word 2"], split, |s| s.words[2] = u32::MAX),
    unsound(&["word 3"], fresh, |s| s.words[3] = 0),
    unsound(&["word 3"], fresh, |s| s.words[3] = 6),
];
