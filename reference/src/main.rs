//! The separate tool's command. It writes the vectors that the programs `vectors_*` answer, or checks
//! those in the tree; it runs random histories of the frame calls against the domain rule and the accounts of frames;
//! and it answers as the program `admit` does, and compares that program with itself.

use std::io::{self, Read, Write};
use std::path::Path;
use std::process::ExitCode;
use std::time::Duration;

use reference::checks::comparison::compare as compare_program;
use reference::checks::{accounts, histories};
use reference::model::admit;
use reference::{vectors, SEED};

const USAGE: &str =
    "usage: reference write DIR [SEED] | reference check DIR | reference histories [SEED]
       reference admit | reference compare [PROGRAM [CASES [SEED]]]
  write      writes DIR/vectors_*/stdin and stdout; another seed gives other random cases
  check      says whether those files are what `write` would write today
  histories  runs random histories of the frame calls and says whether the domain rule holds of them, whether
             no domain is above its quota, whether a recolouring that is taken back leaves what was before it,
             whether domains that only take frames use their colours evenly, whether each domain holds the frames
             that its log of calls says, no page in two of them and reserved words as they were, and whether a frame
             that is released as the only free one is had by the next fault
  admit      reads a plan from standard input and prints what the program `admit` prints
  compare    runs a compiled `admit` (target/bin/admit) on random inputs (4000) and says where it differs";

/// Pairs of histories that `histories` compares, histories in which it looks at how evenly frames lie, and histories
/// in which it counts them.
const PAIRS: u32 = 12_000;

/// What `compare` runs, on how many inputs, and how long it waits for each.
const PROGRAM: &str = "target/bin/admit";
const CASES: u32 = 4000;
const LIMIT: Duration = Duration::from_secs(20);

fn main() -> ExitCode {
    let words: Vec<String> = std::env::args().skip(1).collect();
    let words: Vec<&str> = words.iter().map(String::as_str).collect();
    let good = match words.as_slice() {
        ["write", dir] => Some(write(dir, SEED)),
        ["write", dir, seed] => seed.parse().ok().map(|seed| write(dir, seed)),
        ["check", dir] => Some(check(dir)),
        ["histories"] => Some(histories(SEED)),
        ["histories", seed] => seed.parse().ok().map(histories),
        ["admit"] => Some(answer()),
        ["compare", rest @ ..] => compare(rest),
        _ => None,
    };
    match good {
        Some(true) => ExitCode::SUCCESS,
        Some(false) => ExitCode::FAILURE,
        None => {
            eprintln!("{USAGE}");
            ExitCode::from(2)
        }
    }
}

fn write(dir: &str, seed: u64) -> bool {
    let mut good = true;
    for set in vectors::all(seed) {
        good &= set.report();
        good &= set.write(Path::new(dir));
    }
    good
}

fn check(dir: &str) -> bool {
    let mut good = true;
    for set in vectors::all(SEED) {
        good &= set.report();
        good &= set.check(Path::new(dir));
    }
    good
}

fn histories(seed: u64) -> bool {
    let tally = histories::check(seed, PAIRS);
    tally.report();
    let evenness = histories::check_even(seed, PAIRS);
    evenness.report();
    let accounts = accounts::check(seed, PAIRS);
    accounts.report();
    tally.good() && evenness.good() && accounts.good()
}

fn answer() -> bool {
    let mut input = Vec::new();
    let read = io::stdin().lock().read_to_end(&mut input);
    let verdict = admit::judge(&input).to_string();
    read.is_ok() && io::stdout().write_all(verdict.as_bytes()).is_ok()
}

/// None where the words are not a program, a count of cases above 0 and a seed, as far as they are given.
fn compare(words: &[&str]) -> Option<bool> {
    let (program, cases, seed) = match words {
        [] => (PROGRAM, CASES, SEED),
        [program] => (*program, CASES, SEED),
        [program, cases] => (*program, cases.parse().ok()?, SEED),
        [program, cases, seed] => (*program, cases.parse().ok()?, seed.parse().ok()?),
        _ => return None,
    };
    if cases == 0 {
        return None;
    }
    match compare_program(&[program], cases, seed, LIMIT) {
        Ok(tally) => {
            tally.report();
            Some(tally.differences == 0)
        }
        Err(error) => {
            eprintln!("{program}: {error}");
            Some(false)
        }
    }
}
