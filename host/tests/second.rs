//! Made inputs of every profile: answers, boards, words and queries as the second program has them.

mod common;

use second::geometry::Window;
use second::make::{make, Profile};
use second::store::Store as Second;
use second::text::{perform, Ending, NoWatcher};
use second::words::words_of;
use shunebokai::{Bounds, Row, Store};

/// What the second program prints, and its store.
fn expected(input: &str) -> (Box<Second>, String) {
    let transcript = perform(input.as_bytes(), &mut NoWatcher);
    let Ending::Complete(store) = transcript.ending else {
        panic!("a profile whose inputs all end with a store");
    };
    let words: Vec<String> = words_of(&store).iter().map(u32::to_string).collect();
    (store, transcript.output + &words.join(" ") + "\n")
}

/// Windows that go from a point to the whole map.
fn windows() -> impl Iterator<Item = [u32; 4]> {
    let corners = (0..1_048_576).step_by(99_991);
    let upper = corners.clone().flat_map(|x| [[0, 0, x, x], [x, x, x, x]]);
    let lower = corners.map(|x| [x / 2, 0, 1_048_575, x]);
    upper.chain(lower).chain([Window::WHOLE_MAP.sides()])
}

fn compare_queries(store: &Store<Vec<u32>>, second: &Second) {
    for [x0, y0, x1, y1] in windows() {
        let window = Window::proper([x0, y0, x1, y1]).expect("a proper window");
        let rows = second.query(window);
        let rows = rows.iter().map(|(train, bbox)| {
            let [x0, y0, x1, y1] = bbox.sides();
            let bounds = Bounds::new(x0, y0, x1, y1);
            let train = train.0;
            Row { train, bounds }
        });
        let listed = store.query(Bounds::new(x0, y0, x1, y1));
        assert_eq!(listed, Ok(rows.collect()), "window {x0} {y0} {x1} {y1}");
    }
}

fn compare(profile: Profile, seeds: u64) {
    for seed in 1..=seeds {
        let input = make(profile, seed, profile.default_steps());
        let input = String::from_utf8(input).expect("a text");
        let (second, output) = expected(&input);
        for batch in [1 + seed as usize, 4096] {
            let (store, ours) = common::printed(&input, batch);
            let name = profile.name();
            assert!(ours == output, "{name} {seed} in batches of {batch}");
            compare_queries(&store, &second);
        }
    }
}

#[test]
fn tiny_runs_agree() {
    compare(Profile::Tiny, 60);
}

#[test]
fn deep_runs_agree() {
    compare(Profile::Deep, 6);
}

#[test]
fn cleaning_runs_agree() {
    compare(Profile::Cleaning, 20);
}

#[test]
fn runs_with_many_boards_agree() {
    compare(Profile::Boards, 15);
}

#[test]
fn wild_words_are_answered_alike() {
    compare(Profile::Wild, 25);
}
