//! The checker itself: it finds each stand-in for a step. That it finds each broken rule is tested in `damaged.rs`.

mod common;

use common::{Checked, CLEAN, INSPECT};
use second::check::{test_demands, test_step, Done, Reading, Reported, Snapshot};
use second::words::words_of;

/// Where a page of the example starts.
const PAGE: fn(usize) -> usize = |number| 16 + 52 * number;

/// Three levels with root 11 over 2 and 10, obsolete entries, and board 0 with trains 2 to 4.
fn example() -> Checked {
    let mut store = Checked::fresh([16, 64, 2]);
    for train in 1..=37 {
        store.step([1, train, 10 * train, 0, 10 * train + 2, 2]);
    }
    store.step([5, 0, 15, 0, 40, 5]);
    store.step([2, 5, 0, 0, 0, 0]);
    store.step([1, 37, 371, 0, 373, 2]);
    store.step([2, 60, 0, 0, 0, 0]);
    store.step(CLEAN);
    store
}

/// What the checker says where a step leaves `after` with this answer.
fn feigned(step: [u32; 6], after: &[u32], number: u32, count: u32) -> String {
    let snapshot = |words: &[u32]| Snapshot::of(words.into()).expect("words with a meaning");
    let before = snapshot(&words_of(&example().store));
    let done = Done {
        step,
        number,
        count,
    };
    test_step(&before, &snapshot(after), done).expect_err("a stand-in")
}

#[test]
fn steps_that_do_nothing_or_refuse_always() {
    let same = words_of(&example().store);
    let report = [1, 2, 500, 0, 500, 0];
    assert!(feigned(report, &same, 0, 1).contains("next stamp"));
    assert!(feigned(report, &same, 12, 0).contains("number 12 instead of 0"));
    assert!(feigned([2, 2, 0, 0, 0, 0], &same, 0, 1).contains("next stamp"));
    assert!(feigned([5, 1, 0, 0, 9, 9], &same, 0, 0).contains("opened"));
    assert!(feigned([6, 0, 0, 0, 0, 0], &same, 0, 0).contains("closed"));
    assert!(feigned(CLEAN, &same, 0, 0).contains("clean does not remove"));
    assert!(feigned([6, 1, 0, 0, 0, 0], &same, 0, 0).contains("number 0 instead of 10"));
}

#[test]
fn invented_counts() {
    for (step, wrong) in [
        ([1, 2, 500, 0, 500, 0], 0),
        ([2, 2, 0, 0, 0, 0], 2),
        ([5, 1, 0, 0, 40, 9], 3),
        ([6, 0, 0, 0, 0, 0], 1),
        (CLEAN, 0),
        (INSPECT, 1),
        ([3, 1, 0, 0, 0, 0], 1),
    ] {
        let mut store = example();
        let (number, count) = store.step(step);
        assert_ne!(count, wrong, "{step:?}");
        let said = feigned(step, &words_of(&store.store), number, wrong);
        assert!(said.contains("count"), "{step:?}: {said}");
    }
}

#[test]
fn changes_that_no_step_may_make() {
    let mut refused = words_of(&example().store);
    refused[PAGE(3) + 2] = 2;
    let said = feigned([3, 1, 0, 0, 0, 0], &refused, 6, 0);
    assert!(said.contains("refused step changes"), "{said}");
    let mut report = example();
    report.step([1, 50, 600, 0, 600, 0]);
    let mut marked = words_of(&report.store);
    marked[PAGE(3) + 2] = 2;
    let said = feigned([1, 50, 600, 0, 600, 0], &marked, 0, 0);
    assert!(said.contains("mark of leaf 3"), "{said}");
    let mut inspected = words_of(&example().store);
    inspected[PAGE(3) + 2] = 2;
    let said = feigned(INSPECT, &inspected, 0, 0);
    assert!(said.contains("a page changes"), "{said}");
}

#[test]
fn a_map_that_does_not_agree() {
    let reading = Reading::of(&words_of(&example().store)).expect("words with a meaning");
    let said = test_demands(&reading, &Reported::new()).expect_err("another map");
    assert!(said.contains("last reports"));
}
