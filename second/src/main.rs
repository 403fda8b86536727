//! The command line of the second program.

use second::check::{judge_lines, Checker};
use second::damaged::damaged;
use second::make::{make, Profile};
use second::runs::runs;
use second::text::{perform, Ending, NoWatcher, Transcript, MOST_BYTES};
use second::words::words_of;
use std::io::{self, Read, Write};
use std::process::ExitCode;

const HELP: &str = "\
second: the independent second program of the train index

second           read an input from standard input and print its output
second --words   the same, then one line with all words of the store, if
                 one was started
second --check   the same output; test every step against the rules, and on
                 a violation say what and at which line and exit with 1
second --make PROFILE SEED [STEPS]
                 print a made input; PROFILE is one of tiny, deep, cleaning,
                 boards, wild, text; SEED and STEPS are decimals
second --judge   read stores from standard input, the words of one in a line,
                 and print for each the number that a call gives: 0 to 3
second --damaged print stores in that form, each with one damage or sound
second --runs    print the long runs that the definitions are held to
second --help    print this text
";

/// What the arguments ask for.
enum Command {
    Run,
    Words,
    Check,
    Make(Profile, u64, usize),
    Judge,
    Damaged,
    Runs,
    Help,
}

impl Command {
    fn read(arguments: &[&str]) -> Result<Command, String> {
        match arguments {
            [] => Ok(Command::Run),
            ["--words"] => Ok(Command::Words),
            ["--check"] => Ok(Command::Check),
            ["--judge"] => Ok(Command::Judge),
            ["--damaged"] => Ok(Command::Damaged),
            ["--runs"] => Ok(Command::Runs),
            ["--help"] => Ok(Command::Help),
            ["--make", profile, seed] => Command::read_make(profile, seed, None),
            ["--make", profile, seed, steps] => Command::read_make(profile, seed, Some(steps)),
            ["--make", ..] => Err("--make takes PROFILE SEED [STEPS]".into()),
            _ => Err(format!("unknown arguments: {}", arguments.join(" "))),
        }
    }

    fn read_make(profile: &str, seed: &str, steps: Option<&str>) -> Result<Command, String> {
        let profile =
            Profile::named(profile).ok_or_else(|| format!("unknown profile: {profile}"))?;
        let no_decimal = |text: &str| format!("not a decimal in range: {text}");
        let seed = seed.parse().map_err(|_| no_decimal(seed))?;
        let steps = match steps {
            Some(steps) => steps.parse().map_err(|_| no_decimal(steps))?,
            None => profile.default_steps(),
        };
        Ok(Command::Make(profile, seed, steps))
    }
}

fn main() -> ExitCode {
    let arguments: Vec<String> = std::env::args_os()
        .skip(1)
        .map(|argument| argument.to_string_lossy().into_owned())
        .collect();
    let arguments: Vec<&str> = arguments.iter().map(String::as_str).collect();
    let outcome = match Command::read(&arguments) {
        Ok(command) => obey(command),
        Err(what) => {
            eprintln!("second: {what}\nsecond: try --help");
            return ExitCode::from(2);
        }
    };
    outcome.unwrap_or_else(|error| {
        eprintln!("second: {error}");
        ExitCode::from(2)
    })
}

fn obey(command: Command) -> io::Result<ExitCode> {
    match command {
        Command::Help => print(HELP.as_bytes())?,
        Command::Make(profile, seed, steps) => print(&make(profile, seed, steps))?,
        Command::Judge => {
            let numbers = judge_lines(&io::read_to_string(io::stdin().lock())?);
            let no_word = |error| io::Error::new(io::ErrorKind::InvalidData, error);
            print(numbers.map_err(no_word)?.as_bytes())?;
        }
        Command::Damaged => print(damaged().as_bytes())?,
        Command::Runs => print(runs().as_bytes())?,
        Command::Run => {
            let transcript = perform(&read_input()?, &mut NoWatcher);
            print(transcript.output.as_bytes())?;
        }
        Command::Words => {
            let transcript = perform(&read_input()?, &mut NoWatcher);
            print(with_words(transcript).as_bytes())?;
        }
        Command::Check => {
            let transcript = perform(&read_input()?, &mut Checker::default());
            print(transcript.output.as_bytes())?;
            if let Ending::Complaint { line, what } = transcript.ending {
                eprintln!("second: line {line}: {what}");
                return Ok(ExitCode::from(1));
            }
        }
    }
    Ok(ExitCode::SUCCESS)
}

/// Reads one byte more than is looked at, which is enough to tell that an input is too long.
fn read_input() -> io::Result<Vec<u8>> {
    let mut input = Vec::new();
    let limit = MOST_BYTES as u64 + 1;
    io::stdin().lock().take(limit).read_to_end(&mut input)?;
    Ok(input)
}

fn print(bytes: &[u8]) -> io::Result<()> {
    let mut out = io::stdout().lock();
    out.write_all(bytes)?;
    out.flush()
}

fn with_words(transcript: Transcript) -> String {
    let mut output = transcript.output;
    if let Ending::Complete(store) | Ending::Cut(store) = transcript.ending {
        let words = words_of(&store);
        let decimals: Vec<String> = words.iter().map(u32::to_string).collect();
        output.push_str(&decimals.join(" "));
        output.push('\n');
    }
    output
}
