//! 200 made inputs with every step held against the rules, and what they bring about.

mod common;

use common::checked;
use second::make::{make, Profile};
use second::text::{Ending, MOST_BYTES};
use second::tree::Happenings;
use std::collections::{BTreeMap, BTreeSet};

/// What the inputs of one profile brought about.
#[derive(Default)]
struct Seen {
    /// How often each kind of step answered each number.
    numbers: BTreeMap<(String, u32), u32>,
    /// The last line of each output.
    endings: BTreeSet<String>,
    happenings: Vec<Happenings>,
    complete: usize,
}

impl Seen {
    fn count(&self, number: u32) -> u32 {
        let answers = self.numbers.iter();
        answers
            .filter(|((_, given), _)| *given == number)
            .map(|(_, count)| count)
            .sum()
    }

    fn note_output(&mut self, output: &str) {
        for line in output.lines().skip(1) {
            let fields: Vec<&str> = line.split(' ').collect();
            if let [kind, number, _] = fields[..] {
                if let Ok(number) = number.parse() {
                    *self.numbers.entry((kind.into(), number)).or_default() += 1;
                }
            }
        }
        let last = output.lines().last().unwrap_or("");
        self.endings.insert(last.into());
    }

    fn sum(&self, part: impl Fn(&Happenings) -> u32) -> u32 {
        self.happenings.iter().map(part).sum()
    }

    fn thin_at(&self, level: u32) -> u32 {
        self.sum(|happenings| happenings.thin.get(&level).copied().unwrap_or(0))
    }
}

/// Runs the profile's inputs of seeds 1 to `seeds`.
fn run(profile: Profile, seeds: u64) -> Seen {
    let mut seen = Seen::default();
    for seed in 1..=seeds {
        let input = make(profile, seed, profile.default_steps());
        if profile != Profile::Text {
            assert!(input.len() < MOST_BYTES);
        }
        let transcript = checked(&input);
        seen.note_output(&transcript.output);
        if let Ending::Complete(store) = transcript.ending {
            seen.complete += 1;
            seen.happenings.push(store.tree.happenings);
        }
    }
    seen
}

#[test]
fn tiny_meets_every_refusal_but_11() {
    let seen = run(Profile::Tiny, 50);
    for number in (6..=14).filter(|&number| number != 11) {
        assert!(seen.count(number) >= 50, "number {number}");
    }
    assert_eq!(seen.count(11), 0);
    for kind in 1..=6 {
        assert!(seen.numbers[&(kind.to_string(), 0)] >= 50, "kind {kind}");
    }
    assert!(seen.numbers[&("1".into(), 14)] >= 20);
    assert!(seen.numbers[&("5".into(), 14)] >= 20);
}

#[test]
fn deep_reaches_four_levels() {
    let seen = run(Profile::Deep, 30);
    assert_eq!(seen.complete, 30);
    assert!(seen.happenings.iter().all(|h| h.most_levels == 4));
    assert!(seen.sum(|h| h.root_splits_by_clean) > 0);
    assert!(seen.sum(|h| h.pages_under_new_root) > 0);
    assert!(seen.thin_at(3) > 0);
}

#[test]
fn cleaning_thins_pages_at_three_levels_and_changes_the_root() {
    let seen = run(Profile::Cleaning, 40);
    assert!(seen.thin_at(1) >= 400);
    assert!(seen.thin_at(2) >= 100);
    assert!(seen.thin_at(3) >= 10);
    assert!(seen.sum(|h| h.root_splits) >= 100);
    assert!(seen.sum(|h| h.root_collapses) >= 40);
    assert!(seen.sum(|h| h.root_splits_by_clean) > 0);
}

#[test]
fn boards_are_opened_filled_and_closed() {
    let seen = run(Profile::Boards, 25);
    for (kind, number) in [("1", 14), ("5", 0), ("5", 10), ("6", 0), ("6", 10)] {
        let count = seen.numbers[&(kind.into(), number)];
        assert!(count >= 25, "kind {kind} number {number}");
    }
}

#[test]
fn wild_words_are_refused_or_run() {
    let seen = run(Profile::Wild, 25);
    for number in [0, 6, 7, 8, 9, 10, 12, 13, 14] {
        assert!(seen.count(number) >= 10, "number {number}");
    }
}

#[test]
fn damaged_texts_end_in_every_way() {
    let seen = run(Profile::Text, 30);
    let ends = |start: &str| seen.endings.iter().any(|ending| ending.starts_with(start));
    assert!(ends("bad line 1"));
    assert!(ends("too long"));
    assert!(ends("start 1"));
    let bad_lines = seen.endings.iter().filter(|e| e.starts_with("bad line"));
    assert!(bad_lines.count() >= 8);
    assert!(seen.complete > 0);
}

#[test]
fn the_same_seed_makes_the_same_text_and_another_seed_another() {
    for profile in Profile::ALL {
        let text = |seed| make(profile, seed, 200);
        assert_eq!(text(3), text(3));
        assert!((4..9).any(|seed| text(seed) != text(3)));
    }
}

#[test]
fn a_length_beyond_the_limit_is_cut() {
    for profile in Profile::ALL {
        if profile != Profile::Text {
            assert!(make(profile, 1, 9_000).len() <= MOST_BYTES);
        }
    }
}
