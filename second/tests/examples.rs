//! The examples of 01, each run with every step held against the rules.

mod common;

use common::{output_of, Checked, CLEAN, INSPECT};

const TEXT: &str = "\
4 8 1
5 0 100 100 200 200
1 7 150 150 160 150
1 9 300 300 300 300
1 7 210 150 220 150
3 0 0 0 0 0
4 0 0 0 0 0
1 9 200 200 200 200
";

const PRINTED: &str = "\
start 0
5 0 0
1 0 1
1 0 0
1 0 1
3 0 1
4 0 2
1 0 1
board 0 rows 1
9 200 200 200 200
";

#[test]
fn a_fresh_store_answers_an_empty_query() {
    let store = Checked::fresh([4, 8, 1]);
    assert_eq!(store.query_all(), []);
}

#[test]
fn inspect_waits_for_a_clean() {
    let mut store = Checked::fresh([4, 8, 1]);
    assert_eq!(store.report_at(7, 5, 5), 0);
    assert_eq!(store.step(INSPECT), (0, 0));
    assert_eq!(store.step(CLEAN), (0, 0));
    assert_eq!(store.step(INSPECT), (0, 1));
}

#[test]
fn withdrawing_an_unknown_train_makes_a_slot() {
    let mut store = Checked::fresh([4, 8, 1]);
    assert_eq!(store.step([2, 5, 0, 0, 0, 0]), (0, 0));
    assert_eq!(store.slots(), [(5, 1, 1)]);
}

#[test]
fn a_withdrawn_train_is_cleaned_but_its_slot_stays() {
    let mut store = Checked::fresh([4, 8, 1]);
    store.report_at(7, 5, 5);
    assert_eq!(store.step([2, 7, 0, 0, 0, 0]), (0, 0));
    assert_eq!(store.slots(), [(7, 2, 2)]);
    assert_eq!(store.step(CLEAN), (0, 1));
    assert_eq!(store.slots(), [(7, 2, 1)]);
}

#[test]
fn one_page_holds_three_entries() {
    let mut store = Checked::fresh([1, 8, 1]);
    for _ in 0..3 {
        assert_eq!(store.report_at(7, 5, 5), 0);
    }
    assert_eq!(store.report_at(7, 5, 5), 12);
    assert_eq!(store.step(CLEAN), (0, 2));
    assert_eq!(store.slots(), [(7, 3, 1)]);
    assert_eq!(store.report_at(7, 5, 5), 0);
}

#[test]
fn one_slot_serves_one_train() {
    let mut store = Checked::fresh([4, 1, 1]);
    assert_eq!(store.report_at(7, 5, 5), 0);
    assert_eq!(store.report_at(9, 5, 5), 13);
    assert_eq!(store.report_at(7, 5, 5), 0);
}

#[test]
fn improper_boxes_and_train_0() {
    let mut store = Checked::fresh([4, 8, 1]);
    assert_eq!(store.step([1, 7, 5, 5, 4, 5]), (8, 0));
    assert_eq!(store.step([1, 0, 5, 5, 4, 5]), (7, 0));
}

#[test]
fn a_point_on_a_corner_is_listed() {
    let mut store = Checked::fresh([4, 8, 1]);
    assert_eq!(store.step([5, 0, 100, 100, 200, 200]), (0, 0));
    assert_eq!(store.step([1, 7, 200, 200, 200, 200]), (0, 1));
    assert_eq!(store.rows(0), [(7, [200, 200, 200, 200])]);
    let corner = store.query([200, 200, 300, 300]);
    assert_eq!(corner, [(7, [200, 200, 200, 200])]);
    assert_eq!(store.query([201, 200, 300, 300]), []);
}

#[test]
fn three_pages_hold_nine_reports() {
    let mut store = Checked::fresh([3, 16, 0]);
    for train in 1..=9 {
        assert_eq!(store.report_at(train, train, 5), 0);
    }
    assert_eq!(store.report_at(10, 10, 5), 12);
    assert_eq!(store.query_all().len(), 9);
}

#[test]
fn a_full_board_takes_a_new_box_of_a_listed_train() {
    let mut store = Checked::fresh([8, 32, 2]);
    assert_eq!(store.step([5, 0, 0, 0, 99, 99]), (0, 0));
    for train in 1..=16 {
        assert_eq!(store.step([1, train, 1, 1, 2, 2]), (0, 1));
    }
    assert_eq!(store.step([1, 17, 1, 1, 2, 2]), (14, 0));
    assert_eq!(store.step([1, 5, 7, 7, 8, 8]), (0, 1));
    assert_eq!(store.rows(0).len(), 16);
    assert_eq!(store.rows(0)[4], (5, [7, 7, 8, 8]));
    assert_eq!(store.step([1, 17, 100, 100, 100, 100]), (0, 0));
    assert_eq!(store.step([5, 1, 0, 0, 100, 100]), (14, 0));
    assert_eq!(store.step([5, 1, 100, 100, 100, 100]), (0, 1));
}

#[test]
fn the_program_prints_its_example() {
    assert_eq!(output_of(TEXT), PRINTED);
}
