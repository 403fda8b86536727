//! The four shortcuts that bring old trains back: the right rule stands, and the checker finds
//! the words that the shortcut would have left.

mod common;

use common::{Checked, CLEAN, INSPECT};
use second::check::{test_sound, Reading};
use second::words::words_of;

fn complaint(words: &[u32]) -> String {
    let reading = Reading::of(words).expect("words with a meaning");
    test_sound(&reading).expect_err("an unsound store")
}

/// The words without the memo's first slot.
fn without_first_slot(mut words: Vec<u32>) -> Vec<u32> {
    let (memo, boards) = (words[6] as usize, words[8] as usize);
    words.copy_within(memo + 3..boards, memo);
    words[boards - 3..boards].fill(0);
    words
}

#[test]
fn inspect_frees_below_the_mark_and_not_at_it() {
    let mut store = Checked::fresh([4, 8, 1]);
    store.report_at(7, 1, 1);
    store.step(CLEAN);
    store.report_at(7, 2, 2);
    assert_eq!(store.step(INSPECT), (0, 0));
    assert_eq!(store.query_all(), [(7, [2, 2, 2, 2])]);
    let freed = without_first_slot(words_of(&store.store));
    assert!(complaint(&freed).contains("two latest entries"));
}

#[test]
fn the_second_half_of_a_split_keeps_the_mark() {
    let mut store = Checked::fresh([8, 16, 1]);
    store.report_at(7, 900, 900);
    store.report_at(7, 1, 1);
    for train in 11..=17 {
        store.report_at(train, train * 40, train * 40);
    }
    // The old entry of train 7 now stands in the second half, page 1, below the root in page 2.
    let words = words_of(&store.store);
    assert_eq!((words[2], words[3]), (2, 2));
    let marks = [words[16 + 2], words[16 + 52 + 2]];
    assert_eq!(marks, [1, 1]);
    let mut late = words.clone();
    late[16 + 52 + 2] = words[1];
    assert!(complaint(&late).contains("obsolete entry below its mark"));
    assert_eq!(store.step(CLEAN), (0, 0));
    assert_eq!(store.step(INSPECT), (0, 0));
    assert_eq!(store.query([1, 1, 1, 1]), [(7, [1, 1, 1, 1])]);
    assert_eq!(store.query([900, 900, 900, 900]), []);
    assert_eq!(store.step(CLEAN), (0, 1));
    assert_eq!(store.query([900, 900, 900, 900]), []);
}

#[test]
fn a_slot_of_old_count_1_stays() {
    let mut store = Checked::fresh([8, 16, 1]);
    store.report_at(7, 1, 1);
    store.step(CLEAN);
    assert_eq!(store.step(INSPECT), (0, 1));
    // Two leaves, so that one old entry of train 7 outlives the other.
    for train in 11..=17 {
        store.report_at(train, train * 40, train * 40);
    }
    store.report_at(7, 900, 900);
    store.report_at(7, 500, 500);
    let slot_of_7 = |store: &Checked| store.slots()[0];
    assert_eq!(slot_of_7(&store).2, 2);
    assert_eq!(store.step(CLEAN), (0, 1));
    assert_eq!((slot_of_7(&store).0, slot_of_7(&store).2), (7, 1));
    assert_eq!(store.query([900, 900, 900, 900]), []);
    let freed = without_first_slot(words_of(&store.store));
    assert!(complaint(&freed).contains("two latest entries"));
    assert_eq!(store.step(CLEAN), (0, 1));
    assert!(store.slots().iter().all(|slot| slot.0 != 7));
    assert_eq!(
        store.query([500, 500, 900, 900]).last(),
        Some(&(17, [680; 4]))
    );
    assert_eq!(store.query([500; 4]), [(7, [500; 4])]);
}

#[test]
fn a_board_drops_a_train_that_goes_to_no_window() {
    let mut store = Checked::fresh([4, 8, 2]);
    store.step([5, 0, 100, 100, 200, 200]);
    store.step([5, 1, 300, 300, 400, 400]);
    assert_eq!(store.step([1, 7, 150, 150, 150, 150]), (0, 1));
    assert_eq!(store.step([1, 7, 250, 250, 250, 250]), (0, 1));
    assert_eq!(store.rows(0), []);
    assert_eq!(store.step([1, 7, 150, 150, 150, 150]), (0, 1));
    assert_eq!(store.step([1, 7, 350, 350, 350, 350]), (0, 2));
    assert_eq!(store.rows(0), []);
    assert_eq!(store.step([2, 7, 0, 0, 0, 0]), (0, 1));
    assert_eq!(store.rows(1), []);
    let mut kept = words_of(&store.store);
    let board = kept[8] as usize;
    kept[board + 5] = 1;
    kept[board + 6..board + 11].copy_from_slice(&[7, 150, 150, 150, 150]);
    assert!(complaint(&kept).contains("rule 8: board 0"));
}
