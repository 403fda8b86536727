//! What the wrapper's types can't rule out, the calls refuse by the table; a refused call leaves every slice as it was.

use shunebokai::{calls, Answer, Bounds, Number, Row, Sizes, Step, Store, MOST_ROWS};

const SMALL: Sizes = Sizes {
    pages: 4,
    slots: 8,
    boards: 2,
};
const LENGTH: usize = 16 + 52 * 4 + 3 * 8 + 86 * 2;
const REPORT: [u32; 6] = [1, 7, 5, 5, 5, 5];

/// A store with train 7 at (5, 5) and board 0 open around it.
fn small() -> Store<Vec<u32>> {
    let mut store = Store::start(SMALL).expect("sizes in range");
    let steps = [
        Step::open(0, Bounds::new(0, 0, 9, 9)),
        Step::report(7, Bounds::point(5, 5)),
    ];
    let answers = store.run(&steps).expect("a sound store");
    assert!(answers.iter().all(|answer| answer.number.is_done()));
    store
}

#[test]
fn a_start_is_refused_for_sizes_then_for_the_length() {
    let fault = |pages, slots, boards| {
        let sizes = Sizes {
            pages,
            slots,
            boards,
        };
        assert_eq!(Store::start(sizes).err(), Some(Number::SIZES_OUT_OF_RANGE));
        let mut words = [9; 100];
        assert_eq!(calls::start(pages, slots, boards, &mut words), 1);
        assert_eq!(words, [9; 100]);
    };
    fault(0, 1, 0);
    fault(193, 1, 0);
    fault(1, 0, 0);
    fault(1, 1025, 0);
    fault(1, 1, 33);
    fault(u32::MAX, u32::MAX, u32::MAX);
    for length in [0, 1, LENGTH - 1, LENGTH + 1] {
        let mut words = vec![9; length];
        let started = Store::start_in(SMALL, &mut words[..]);
        assert_eq!(started.err(), Some(Number::NOT_LAID_OUT));
        assert_eq!(words, vec![9; length]);
    }
    let largest = Store::start(Sizes::LARGEST).expect("the largest store");
    assert_eq!(largest.words().len(), 15_824);
}

#[test]
fn a_run_of_odd_lengths_is_refused_and_leaves_all_as_it_was() {
    let mut store = small().into_words();
    let before = store.clone();
    for length in 1..6 {
        let mut answers = [9; 2];
        assert_eq!(calls::run(&mut store, &REPORT[..length], &mut answers), 4);
        assert_eq!(answers, [9; 2]);
    }
    for length in [0, 1, 3, 4] {
        let mut answers = vec![9; length];
        assert_eq!(calls::run(&mut store, &REPORT, &mut answers), 5);
        assert_eq!(answers, vec![9; length]);
    }
    assert_eq!(store, before);
    assert_eq!(calls::run(&mut store, &[], &mut []), 0);
    assert_eq!(store, before);
}

#[test]
fn answers_of_another_number_are_refused() {
    let mut store = small();
    let steps = [Step::clean(), Step::inspect()];
    for length in [0, 1, 3] {
        let mut answers = vec![Answer::default(); length];
        let ran = store.run_into(&steps, &mut answers);
        assert_eq!(ran, Err(Number::ANSWERS_ODD));
    }
}

#[test]
fn a_refused_step_is_passed_over() {
    let mut store = small();
    let steps = [
        Step::from([7, 0, 0, 0, 0, 0]),
        Step::report(0, Bounds::point(1, 1)),
        Step::report(9, Bounds::new(5, 5, 4, 5)),
        Step::close(2),
        Step::open(0, Bounds::point(1, 1)),
        Step::report(9, Bounds::point(6, 6)),
    ];
    let answers = store.run(&steps).expect("a sound store");
    let numbers: Vec<u32> = answers.iter().map(|answer| answer.number.0).collect();
    assert_eq!(numbers, [6, 7, 8, 9, 10, 0]);
    assert_eq!(answers[5].count, 1);
    assert_eq!(store.board(0).map(<[Row]>::len), Ok(2));
}

#[test]
fn lent_words_that_are_no_store_are_refused() {
    let steps = [Step::clean()];
    for length in [0, 1, 15] {
        let mut words = vec![9; length];
        let mut store = Store::lent(&mut words[..]);
        assert_eq!(store.run(&steps), Err(Number::NOT_LAID_OUT));
        assert_eq!(store.query(Bounds::WHOLE_MAP), Err(Number::NOT_LAID_OUT));
        assert_eq!(store.board(0), Err(Number::NOT_LAID_OUT));
        assert_eq!(words, vec![9; length]);
    }
    let whole = small().into_words();
    let cut = Store::lent(&whole[..LENGTH - 1]);
    assert_eq!(cut.query(Bounds::WHOLE_MAP), Err(Number::NOT_LAID_OUT));
    let mut garbage = Store::lent(vec![u32::MAX; LENGTH]);
    assert_eq!(garbage.run(&steps), Err(Number::SIZES_OUT_OF_RANGE));
}

#[test]
fn a_damaged_store_is_not_sound_to_any_call() {
    let whole = small().into_words();
    let (memo, boards) = (16 + 52 * 4, LENGTH - 2 * 86);
    // the root, the levels, a leaf's count, an entry's train and stamp, a slot's stamp, a board's window and row
    for place in [2, 3, 17, 24, 25, memo + 1, boards, boards + 6] {
        let mut words = whole.clone();
        words[place] = 1_000_000;
        let damaged = words.clone();
        let mut store = Store::lent(words);
        assert_eq!(
            store.run(&[Step::clean()]),
            Err(Number::NOT_SOUND),
            "{place}"
        );
        assert_eq!(store.query(Bounds::point(1, 1)), Err(Number::NOT_SOUND));
        assert_eq!(store.board_test(0), Err(Number::NOT_SOUND));
        assert_eq!(store.board(0), Err(Number::NOT_SOUND));
        assert_eq!(store.words(), damaged);
    }
}

#[test]
fn a_refused_query_writes_no_row() {
    let store = small();
    let mut rows = [9; 5];
    let whole = [0, 0, 1_048_575, 1_048_575];
    assert_eq!(calls::query(store.words(), [2, 0, 1, 0], &mut rows), (8, 0));
    assert_eq!(
        calls::query(store.words(), [0, 0, 1_048_576, 0], &mut rows),
        (8, 0)
    );
    assert_eq!(calls::query(store.words(), whole, &mut rows[..4]), (15, 0));
    assert_eq!(calls::query(store.words(), whole, &mut []), (15, 0));
    assert_eq!(rows, [9; 5]);
    assert_eq!(calls::query(store.words(), whole, &mut rows), (0, 1));
    assert_eq!(rows, [7, 5, 5, 5, 5]);
    assert_eq!(store.query_into(Bounds::point(0, 0), &mut []), Ok(0));
}

#[test]
fn words_after_the_last_row_stay() {
    let store = small();
    let mut rows = [9; 12];
    let (number, count) = calls::query(store.words(), [0, 0, 9, 9], &mut rows);
    assert_eq!((number, count), (0, 1));
    assert_eq!(rows, [7, 5, 5, 5, 5, 9, 9, 9, 9, 9, 9, 9]);
    assert!(store.query(Bounds::WHOLE_MAP).expect("rows").len() <= MOST_ROWS);
}

#[test]
fn boards_are_read_where_they_stand() {
    let store = small();
    let (number, rows) = calls::board_rows(store.words(), 0);
    assert_eq!(number, 0);
    assert_eq!(rows, [7, 5, 5, 5, 5]);
    let start = LENGTH - 2 * 86 + 6;
    assert_eq!(rows.as_ptr(), store.words()[start..].as_ptr());
    assert_eq!(store.board(1), Err(Number::OPEN_OR_CLOSED));
    assert_eq!(store.board_test(1), Err(Number::OPEN_OR_CLOSED));
    assert_eq!(store.board(2), Err(Number::NO_BOARD));
    assert_eq!(store.board(u32::MAX), Err(Number::NO_BOARD));
    assert!(calls::board_rows(store.words(), 1).1.is_empty());
}

#[test]
fn a_store_may_be_lent_kept_and_lent_again() {
    let mut words = vec![3; LENGTH];
    let mut store = Store::start_in(SMALL, &mut words[..]).expect("the right length");
    store
        .run(&[Step::report(9, Bounds::point(1, 2))])
        .expect("a sound store");
    let kept = words.clone();
    let store = Store::lent(&kept[..]);
    let rows = store.query(Bounds::WHOLE_MAP).expect("a sound store");
    assert_eq!(rows.len(), 1);
    assert_eq!(rows[0].train, 9);
}

#[test]
fn every_number_has_a_text() {
    for number in 0..=15 {
        assert_ne!(Number(number).text(), Number(16).text());
    }
    assert_eq!(Number::NO_TRAIN.to_string(), "7 (train 0)");
}
