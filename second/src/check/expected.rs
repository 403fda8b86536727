//! The number a step must answer, told from the words before it: the lowest fault that applies.

use super::reading::{is_proper, meets, Reading, Sides};

const REPORT: u32 = 1;
const WITHDRAW: u32 = 2;
const OPEN: u32 = 5;
const CLOSE: u32 = 6;

/// The lowest number from 6 to 14 that applies, or 0.
pub fn expected_number(before: &Reading, step: [u32; 6]) -> u32 {
    let [kind, a, sides @ ..] = step;
    let on_train = kind == REPORT || kind == WITHDRAW;
    let with_sides = kind == REPORT || kind == OPEN;
    let on_board = kind == OPEN || kind == CLOSE;
    let board = before.boards.get(a as usize);
    let open = board.is_some_and(Option::is_some);
    let no_slot = !before.slots.contains_key(&a) && before.slots.len() == before.slot_count;
    let faults = [
        (6, has_wrong_words(kind, a, sides)),
        (7, on_train && a == 0),
        (8, with_sides && !is_proper(sides)),
        (9, on_board && board.is_none()),
        (10, on_board && board.is_some() && open == (kind == OPEN)),
        (11, on_train && before.next_stamp == u32::MAX),
        (
            12,
            kind == REPORT && before.held().count() >= 3 * before.pages.len(),
        ),
        (13, on_train && no_slot),
        (14, needs_a_17th_row(before, kind, a, sides)),
    ];
    let first = faults.iter().find(|(_, applies)| *applies);
    first.map_or(0, |&(number, _)| number)
}

fn has_wrong_words(kind: u32, a: u32, sides: Sides) -> bool {
    match kind {
        REPORT | OPEN => false,
        WITHDRAW | CLOSE => sides != [0; 4],
        3 | 4 => a != 0 || sides != [0; 4],
        _ => true,
    }
}

fn needs_a_17th_row(before: &Reading, kind: u32, a: u32, sides: Sides) -> bool {
    match kind {
        REPORT => before.open_boards().any(|(_, board)| {
            let listed = board.rows.contains_key(&a);
            meets(sides, board.window) && !listed && board.rows.len() == 16
        }),
        OPEN => {
            let latest = before.latest_boxes();
            let rows = latest.values().filter(|&&bbox| meets(bbox, sides));
            rows.count() > 16
        }
        _ => false,
    }
}
