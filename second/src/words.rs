//! The edge: a store written out as the words of 01's layout.

use crate::boards::Board;
use crate::page::{Content, Page};
use crate::store::{Shape, Store};

const HEADER: usize = 16;
const PAGE: usize = 52;
const SLOT: usize = 3;
const BOARD: usize = 86;
const PLACES_AT: usize = 4;
const PLACE: usize = 6;
const ROWS_AT: usize = 6;
const ROW: usize = 5;

/// Where the parts of a store begin.
struct Layout {
    memo: usize,
    boards: usize,
    end: usize,
}

impl Layout {
    fn of(shape: Shape) -> Layout {
        let memo = HEADER + PAGE * shape.pages as usize;
        let boards = memo + SLOT * shape.slots as usize;
        let end = boards + BOARD * shape.boards as usize;
        Layout { memo, boards, end }
    }
}

/// All words of the store.
pub fn words_of(store: &Store) -> Vec<u32> {
    let layout = Layout::of(store.shape);
    let mut words = vec![0; layout.end];
    write_header(store, &layout, &mut words);
    store.tree.root.visit(&mut |page| {
        let start = HEADER + PAGE * page.number.0 as usize;
        write_page(page, &mut words[start..start + PAGE]);
    });
    let slots = words[layout.memo..layout.boards].chunks_exact_mut(SLOT);
    for (place, (train, slot)) in slots.zip(store.memo.slots()) {
        place.copy_from_slice(&[train.0, slot.stamp.0, slot.old_count]);
    }
    let boards = words[layout.boards..].chunks_exact_mut(BOARD);
    for (place, board) in boards.zip(store.boards.all()) {
        if let Some(board) = board {
            write_board(board, place);
        }
    }
    words
}

/// Header, pages, memo and boards, each with the place of its first word and up to its last word that isn't zero.
pub fn parts_of(store: &Store) -> Vec<(usize, Vec<u32>)> {
    let words = words_of(store);
    let layout = Layout::of(store.shape);
    let pages = (HEADER..layout.memo).step_by(PAGE);
    let boards = (layout.boards..layout.end).step_by(BOARD);
    let mut starts = vec![0];
    starts.extend(pages.chain([layout.memo]).chain(boards));
    let ends = starts.iter().copied().skip(1).chain([layout.end]);
    let parts = starts.iter().copied().zip(ends);
    parts
        .filter_map(|(start, end)| {
            let part = &words[start..end];
            let last = part.iter().rposition(|&word| word != 0)?;
            Some((start, part[..=last].to_vec()))
        })
        .collect()
}

fn write_header(store: &Store, layout: &Layout, words: &mut [u32]) {
    words[..10].copy_from_slice(&[
        1,
        store.next_stamp.0,
        store.tree.root.number.0,
        store.tree.levels,
        HEADER as u32,
        store.shape.pages,
        layout.memo as u32,
        store.shape.slots,
        layout.boards as u32,
        store.shape.boards,
    ]);
}

fn write_page(page: &Page, words: &mut [u32]) {
    let (header, places) = words.split_at_mut(PLACES_AT);
    let count = page.place_count() as u32;
    let places = places.chunks_exact_mut(PLACE);
    match &page.content {
        Content::Leaf(leaf) => {
            header.copy_from_slice(&[1, count, leaf.mark.0, 0]);
            for (place, entry) in places.zip(&leaf.entries) {
                place[..4].copy_from_slice(&entry.bbox.sides());
                place[4..].copy_from_slice(&[entry.train.0, entry.stamp.0]);
            }
        }
        Content::Inner(children) => {
            header.copy_from_slice(&[2, count, 0, 0]);
            for (place, child) in places.zip(children) {
                place[..4].copy_from_slice(&child.cover.sides());
                place[4..].copy_from_slice(&[child.page.number.0, 0]);
            }
        }
    }
}

fn write_board(board: &Board, words: &mut [u32]) {
    let (header, rows) = words.split_at_mut(ROWS_AT);
    header[..4].copy_from_slice(&board.window.sides());
    header[4..].copy_from_slice(&[1, board.rows.len() as u32]);
    for (row, (train, bbox)) in rows.chunks_exact_mut(ROW).zip(&board.rows) {
        row[0] = train.0;
        row[1..].copy_from_slice(&bbox.sides());
    }
}
