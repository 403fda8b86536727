//! Long runs with their results, printed as the antt file that holds the definitions to them.

use crate::make::{make, Profile};
use crate::text::{perform, Ending, NoWatcher};
use crate::words::parts_of;
use std::fmt::Write;

/// Profile, seed and length of each run: P is 1, 2, 3, 5, 6, 8, 14, 20 and 33.
const RUNS: [(Profile, u64, usize); 9] = [
    (Profile::Tiny, 1, 90),
    (Profile::Tiny, 13, 90),
    (Profile::Tiny, 34, 90),
    (Profile::Tiny, 3, 90),
    (Profile::Tiny, 30, 90),
    (Profile::Boards, 26, 90),
    (Profile::Cleaning, 7, 140),
    (Profile::Cleaning, 1, 160),
    (Profile::Cleaning, 4, 200),
];

const HEAD: &str = "\
-- Long runs that the second program made and answered (`second --runs` prints this file): the definitions give the same answers and words.
use Rattle.std.specs.Prelude.{◌≡◌, refl, true, List, [], ◌∷◌}
use Rattle.rules.specs.Lists.{every}
use Rattle.rules.specs.Calls.{rules_open}
use Rattle.rules.specs.Text.{Run, ◌gives◌, agrees, text_open}
";

/// The whole file.
pub fn runs() -> String {
    let mut file = String::from(HEAD);
    let mut names = Vec::new();
    for (profile, seed, steps) in RUNS {
        let name = format!("{}_{seed}", profile.name());
        file.push_str(&run(&name, &make(profile, seed, steps)));
        names.push(name);
    }
    let list = format!("{} ∷ []", names.join(" ∷ "));
    let unfolding = names.join(" ");
    file + &format!(
        "\nunfoldable pub runs : List Run\nruns = {list}\n\n\
         pub runs_agree : every agrees runs ≡ true\n\
         unfolding runs {unfolding} rules_open text_open\nruns_agree = refl\n"
    )
}

/// One run: its sizes, each step with its answer, and the words that aren't zero.
fn run(name: &str, input: &[u8]) -> String {
    let transcript = perform(input, &mut NoWatcher);
    let Ending::Complete(store) = transcript.ending else {
        unreachable!("every run of the list ends with a store")
    };
    let input = String::from_utf8_lossy(input);
    let (sizes, steps) = input.split_once('\n').unwrap_or((&input, ""));
    let answers = transcript.output.lines().skip(1);
    let mut text = format!("\nunfoldable pub {name} : Run\n{name} =\n    record {{\n");
    let _ = write!(
        text,
        "      sizes = \"{sizes}\";\n      lines =\n          "
    );
    for (step, answer) in steps.lines().zip(answers) {
        let (_, answer) = answer.split_once(' ').unwrap_or(("", answer));
        let _ = write!(text, "\"{step}\" gives \"{answer}\"\n          ∷ ");
    }
    text.push_str("[];\n      parts =\n          ");
    for (start, words) in parts_of(&store) {
        let words: Vec<String> = words.iter().map(u32::to_string).collect();
        let _ = write!(text, "\"{start} {}\"\n          ∷ ", words.join(" "));
    }
    text + "[];\n    }\n"
}
