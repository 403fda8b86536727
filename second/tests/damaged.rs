//! Damaged stores: each gives its number for its own fault, and the stored ones are those made here.

use second::check::{complaints, judge, judge_lines};
use second::damaged::{damaged, damages};

const STORES: &str = include_str!("../../crates/judged/stdin");
const NUMBERS: &str = include_str!("../../crates/judged/stdout");

#[test]
fn each_damage_gives_its_number() {
    for damage in damages() {
        let words = damage.words();
        let said = complaints(&words);
        assert_eq!(judge(&words), damage.number, "{said:?}");
    }
}

#[test]
fn each_damage_breaks_what_it_says_and_no_more() {
    for damage in damages() {
        let said = complaints(&damage.words());
        let expected = damage.complaints;
        assert_eq!(said.len(), expected.len(), "{expected:?} but: {said:?}");
        for (said, expected) in said.iter().zip(expected) {
            assert!(said.contains(expected), "{expected:?} but: {said:?}");
        }
    }
}

#[test]
fn the_stored_stores_and_numbers_are_the_ones_made() {
    assert!(
        STORES == damaged(),
        "crates/judged/stdin is not what `second --damaged` prints"
    );
    let numbers = judge_lines(STORES).expect("words");
    assert!(
        NUMBERS == numbers,
        "crates/judged/stdout is not what `second --judge` prints for its stdin"
    );
}
