//! 01's layout of words, with the zeros of unused parts and the ranges of single words.

use super::reading::{demand, first_four, is_proper, BoardWords, Kind, PageWords, SlotWords};
use std::collections::BTreeMap;

fn all_zero(words: &[u32]) -> bool {
    words.iter().all(|&word| word == 0)
}

/// The parts of a store behind its header.
pub struct Parts<'a> {
    pub pages: &'a [u32],
    pub memo: &'a [u32],
    pub boards: &'a [u32],
}

/// Tests the header, which tells where the parts are, and takes the words apart.
pub fn parts(words: &[u32]) -> Result<Parts<'_>, String> {
    demand(words.len() >= 16, || "under 16 words".into())?;
    let (pages, slots, boards) = (words[5], words[7], words[9]);
    let in_range = (1..=192).contains(&pages) && (1..=1024).contains(&slots) && boards <= 32;
    demand(in_range, || "words 5, 7 or 9 out of range".into())?;
    let memo_at = 16 + 52 * pages;
    let boards_at = memo_at + 3 * slots;
    let end = boards_at + 86 * boards;
    demand(words.len() == end as usize, || "wrong length".into())?;
    let starts = [words[0], words[4], words[6], words[8]] == [1, 16, memo_at, boards_at];
    demand(starts, || "wrong word 0, 4, 6 or 8".into())?;
    demand(all_zero(&words[10..16]), || {
        "words 10 to 15 not zero".into()
    })?;
    let (front, boards) = words.split_at(boards_at as usize);
    let (front, memo) = front.split_at(memo_at as usize);
    Ok(Parts {
        pages: &front[16..],
        memo,
        boards,
    })
}

pub fn read_page(words: &[u32], page_count: u32) -> Result<PageWords, String> {
    let (header, places) = words.split_at(4);
    let kind = match header[0] {
        0 => Kind::Free,
        1 => Kind::Leaf,
        2 => Kind::Inner,
        other => return Err(format!("kind {other}")),
    };
    demand(header[1] <= 8, || format!("count {}", header[1]))?;
    demand(header[3] == 0, || "fourth word not zero".into())?;
    let (used, unused) = places.split_at(6 * header[1] as usize);
    demand(all_zero(unused), || "unused place not zero".into())?;
    for place in used.chunks_exact(6) {
        demand(is_proper(first_four(place)), || "box not proper".into())?;
        let (fifth, sixth) = (place[4], place[5]);
        match kind {
            Kind::Free => return Err("free with a place".into()),
            Kind::Leaf => demand(fifth != 0, || "train 0".into())?,
            Kind::Inner => demand(fifth < page_count && sixth == 0, || "no child".into())?,
        }
    }
    demand(kind != Kind::Free || header[2] == 0, || {
        "free with a mark".into()
    })?;
    Ok(PageWords {
        kind,
        mark: header[2],
        places: used
            .chunks_exact(6)
            .map(|place| std::array::from_fn(|word| place[word]))
            .collect(),
    })
}

pub fn read_memo(words: &[u32]) -> Result<BTreeMap<u32, SlotWords>, String> {
    let mut slots = BTreeMap::new();
    let mut rest = words.chunks_exact(3);
    let mut last_train = 0;
    for slot in rest.by_ref() {
        if slot[0] == 0 {
            demand(all_zero(slot), || "memo: train 0 in a used slot".into())?;
            break;
        }
        demand(slot[0] > last_train, || "memo: trains not ascending".into())?;
        last_train = slot[0];
        let (stamp, old_count) = (slot[1], slot[2]);
        slots.insert(slot[0], SlotWords { stamp, old_count });
    }
    demand(rest.all(all_zero), || {
        "memo: a used slot after an unused one".into()
    })?;
    Ok(slots)
}

pub fn read_board(words: &[u32]) -> Result<Option<BoardWords>, String> {
    let (open, count) = (words[4], words[5]);
    if open == 0 {
        demand(all_zero(words), || "closed, not zero".into())?;
        return Ok(None);
    }
    demand(open == 1, || format!("open word {open}"))?;
    demand(count <= 16, || format!("row count {count}"))?;
    let window = first_four(words);
    demand(is_proper(window), || "window not proper".into())?;
    let (used, unused) = words[6..].split_at(5 * count as usize);
    demand(all_zero(unused), || "unused row not zero".into())?;
    let mut rows = BTreeMap::new();
    let mut last_train = 0;
    for row in used.chunks_exact(5) {
        demand(row[0] > last_train, || "trains not ascending".into())?;
        last_train = row[0];
        rows.insert(row[0], first_four(&row[1..]));
    }
    Ok(Some(BoardWords { window, rows }))
}
