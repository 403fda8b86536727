//! Arrangements of pages worked out by hand from the rules for places, splits and cleaning.

mod common;

use common::{Checked, CLEAN};
use second::words::words_of;

/// Kind, mark and, of each place, the train or the child.
fn page(words: &[u32], number: usize) -> (u32, u32, Vec<u32>) {
    let page = &words[16 + 52 * number..][..52];
    let places = page[4..].chunks_exact(6).take(page[1] as usize);
    let names = places.map(|place| place[4]).collect();
    (page[0], page[2], names)
}

fn is_free(words: &[u32], number: usize) -> bool {
    let page = &words[16 + 52 * number..][..52];
    page.iter().all(|&word| word == 0)
}

/// A store with a row of trains from left to right.
fn row(trains: impl IntoIterator<Item = u32>) -> Checked {
    let mut store = Checked::fresh([16, 64, 0]);
    for train in trains {
        report_in_row(&mut store, train);
    }
    store
}

fn report_in_row(store: &mut Checked, train: u32) {
    let x = train * 10;
    assert_eq!(store.step([1, train, x, 0, x + 2, 2]), (0, 0));
}

#[test]
fn the_ninth_entry_splits_and_a_new_root_comes_over_it() {
    for trains in [[1, 2, 3, 4, 5, 6, 7, 8, 9], [9, 8, 7, 6, 5, 4, 3, 2, 1]] {
        let words = words_of(&row(trains).store);
        assert_eq!((words[1], words[2], words[3]), (10, 2, 2));
        assert_eq!(page(&words, 0), (1, 1, vec![1, 2, 3, 4]));
        assert_eq!(page(&words, 1), (1, 1, vec![5, 6, 7, 8, 9]));
        assert_eq!(page(&words, 2), (2, 0, vec![0, 1]));
        let boxes = &words[16 + 2 * 52 + 4..][..12];
        assert_eq!(boxes, [10, 0, 42, 2, 0, 0, 50, 0, 92, 2, 1, 0]);
    }
}

#[test]
fn a_clean_that_leaves_enough_keeps_the_order_and_sets_the_mark() {
    let mut store = row([3, 1, 4, 2, 5]);
    store.step([2, 1, 0, 0, 0, 0]);
    assert_eq!(store.step(CLEAN), (0, 1));
    let words = words_of(&store.store);
    assert_eq!(page(&words, 0), (1, 7, vec![3, 4, 2, 5]));
}

#[test]
fn a_root_with_one_child_gives_way_and_its_page_is_used_again() {
    let mut store = row(1..=9);
    store.step([2, 1, 0, 0, 0, 0]);
    store.step([2, 2, 0, 0, 0, 0]);
    assert_eq!(store.step(CLEAN), (0, 2));
    let words = words_of(&store.store);
    assert_eq!((words[2], words[3]), (1, 1));
    assert_eq!(page(&words, 1), (1, 1, vec![5, 6, 7, 8, 9, 3, 4]));
    assert!(is_free(&words, 0) && is_free(&words, 2));
    report_in_row(&mut store, 10);
    report_in_row(&mut store, 11);
    let words = words_of(&store.store);
    assert_eq!((words[2], words[3]), (2, 2));
    assert_eq!(page(&words, 1), (1, 1, vec![3, 4, 5, 6]));
    assert_eq!(page(&words, 0), (1, 1, vec![7, 8, 9, 10, 11]));
    assert_eq!(page(&words, 2), (2, 0, vec![1, 0]));
}

#[test]
fn a_split_goes_up_to_the_root_and_takes_pages_from_below() {
    let words = words_of(&row(1..=37).store);
    assert_eq!((words[2], words[3]), (11, 3));
    assert_eq!(page(&words, 11), (2, 0, vec![2, 10]));
    assert_eq!(page(&words, 2), (2, 0, vec![0, 1, 3, 4]));
    assert_eq!(page(&words, 10), (2, 0, vec![5, 6, 7, 8, 9]));
    assert_eq!(page(&words, 9), (1, 1, vec![33, 34, 35, 36, 37]));
}

#[test]
fn entries_are_put_back_before_child_pages() {
    let mut store = row(1..=37);
    store.step([2, 5, 0, 0, 0, 0]);
    assert_eq!(store.step(CLEAN), (0, 0));
    assert_eq!(store.step(CLEAN), (0, 1));
    let words = words_of(&store.store);
    assert_eq!((words[2], words[3]), (10, 2));
    assert_eq!(page(&words, 10), (2, 0, vec![5, 6, 7, 8, 9, 0, 3, 4]));
    assert_eq!(page(&words, 0), (1, 39, vec![1, 2, 3, 4]));
    assert_eq!(page(&words, 5), (1, 1, vec![17, 18, 19, 20, 6, 7, 8]));
    assert!([1, 2, 11].iter().all(|&number| is_free(&words, number)));
}
