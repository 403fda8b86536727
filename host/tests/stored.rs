//! Stored runs of the second program (`runs/*.in`, by `second --make`) give its answers, boards and words (`runs/*.out`, by
//! `second --words`).

mod common;

use std::fs;
use std::path::Path;

#[test]
fn stored_runs_give_the_second_programs_words() {
    let runs = Path::new(env!("CARGO_MANIFEST_DIR")).join("tests/runs");
    let mut replayed = 0;
    for file in fs::read_dir(runs).expect("the stored runs") {
        let path = file.expect("a file").path();
        if path.extension().is_some_and(|extension| extension == "out") {
            continue;
        }
        let input = fs::read_to_string(&path).expect("an input");
        let expected = fs::read_to_string(path.with_extension("out")).expect("its output");
        for batch in [1, 7, 1000] {
            let (_, output) = common::printed(&input, batch);
            assert!(
                output == expected,
                "{} in batches of {batch}",
                path.display()
            );
        }
        replayed += 1;
    }
    assert_eq!(replayed, 7);
}
