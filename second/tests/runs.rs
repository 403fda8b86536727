//! The long runs that the definitions are held to are the ones that this program makes.

use second::runs::runs;

const STORED: &str = include_str!("../../crates/rules/specs/Runs.antt");

#[test]
fn the_stored_runs_are_the_ones_made() {
    assert!(
        STORED == runs(),
        "crates/rules/specs/Runs.antt is not what `second --runs` prints"
    );
}
