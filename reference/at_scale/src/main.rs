//! The comparison at scale: the linked library, through its C interface, against the separate tool's own
//! model, on quotas around what is held, on faults at chosen lengths of the table, on tables of chosen shapes, on
//! recolourings with pages in chosen orders, on takings back with chosen lists, and then on random cases from a seed.
//! The last line is `N cases, D differences`; it fails where D is not 0, or where a kind of reply never occurs.

mod even;
mod frames;
mod inputs;
mod lengths;
mod lent;
mod order;
mod pages;
mod plans;
mod quotas;
mod taking_back;
mod tally;

use std::process::ExitCode;
use std::time::{Duration, Instant};

use reference::random::Random;
use tally::{unlike, Tally};

const USAGE: &str = "usage: at_scale [SEED] [CASES | SECONDSs] [first]
  at_scale 7 500000         stops after 500,000 random cases or a few more
  at_scale 7 20s            stops after 20 seconds
  at_scale 7 500000 first   stops soon after the first difference, too";

const SEED: u64 = 2003;
const CASES: u64 = 30_000_000;

/// How long to go on at most.
enum Bound {
    Cases(u64),
    Time(Duration),
}

/// How long to go on, and whether a difference is enough.
struct Until {
    bound: Bound,
    first: bool,
}

impl Bound {
    fn read(text: &str) -> Option<Self> {
        match text.strip_suffix('s') {
            None => text.parse().ok().map(Bound::Cases),
            Some(seconds) => {
                let seconds = seconds.parse().ok()?;
                Some(Bound::Time(Duration::from_secs(seconds)))
            }
        }
    }

    fn reached(&self, tally: &Tally, start: Instant) -> bool {
        match self {
            Bound::Cases(cases) => tally.cases - tally.chosen >= *cases,
            Bound::Time(time) => start.elapsed() >= *time,
        }
    }
}

impl Until {
    fn found(&self, tally: &Tally) -> bool {
        self.first && tally.differences > 0
    }
}

fn main() -> ExitCode {
    let words: Vec<String> = std::env::args().skip(1).collect();
    let words: Vec<&str> = words.iter().map(String::as_str).collect();
    let first = words.last() == Some(&"first");
    let given = match &words[..words.len() - usize::from(first)] {
        [] => Some((SEED, Bound::Cases(CASES))),
        [seed] => seed.parse().ok().map(|seed| (seed, Bound::Cases(CASES))),
        [seed, bound] => seed.parse().ok().zip(Bound::read(bound)),
        _ => None,
    };
    let Some((seed, bound)) = given else {
        eprintln!("{USAGE}");
        return ExitCode::from(2);
    };
    println!("seed {seed}");
    match compare(seed, &Until { bound, first }).report() {
        true => ExitCode::SUCCESS,
        false => ExitCode::FAILURE,
    }
}

/// The chosen cases, then random ones of all kinds in turn until the bound is reached.
fn compare(seed: u64, until: &Until) -> Tally {
    let mut random = Random::new(seed);
    let mut tally = Tally::default();
    quotas::all(&mut tally);
    tally.around_held = tally.cases;
    if !until.found(&tally) {
        lengths::all(&mut tally);
    }
    tally.lengths = tally.cases - tally.around_held;
    if !until.found(&tally) {
        even::all(&mut tally);
    }
    tally.shapes = tally.cases - tally.around_held - tally.lengths;
    if !until.found(&tally) {
        order::all(&mut tally);
    }
    tally.orders = tally.cases - tally.around_held - tally.lengths - tally.shapes;
    if !until.found(&tally) {
        taking_back::all(&mut tally);
    }
    tally.chosen = tally.cases;
    let start = Instant::now();
    while !until.bound.reached(&tally, start) && !until.found(&tally) {
        let number = unlike("number", interface::number(), juzvanec::INTERFACE);
        tally.count("interface", 0, &(), number);
        for _ in 0..10 {
            pages::cache_sizes(&mut random, &mut tally);
            pages::layout(&mut random, &mut tally);
            pages::bleaching(&mut random, &mut tally);
        }
        for _ in 0..3 {
            frames::script(&mut random, &mut tally);
            even::script(&mut random, &mut tally);
            order::script(&mut random, &mut tally);
            quotas::script(&mut random, &mut tally);
            taking_back::script(&mut random, &mut tally);
        }
        plans::parts(&mut random, &mut tally);
        for _ in 0..10 {
            plans::family(&mut random, &mut tally);
        }
        for _ in 0..5 {
            inputs::family(&mut random, &mut tally);
        }
    }
    tally
}
