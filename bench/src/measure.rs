//! Times and instruction counts of one case. Times are medians over many short batches, in which the two
//! sides take turns, and the ratio is the median over the turns of their ratio, so that a slow spell counts
//! on both sides; instructions are those that callgrind collects inside the function itself.

use std::env;
use std::process::Command;
use std::time::{Duration, Instant};

use crate::cases::Case;

const BATCH: Duration = Duration::from_micros(100);
const TURNS: usize = 2001;
/// No case goes on for longer, but for a few turns.
const MOST: Duration = Duration::from_secs(2);
const FEWEST: usize = 21;

/// Nanoseconds, or instructions, for one call of either side, and ours by the baseline's.
#[derive(Clone, Copy)]
pub struct Pair {
    pub ours: f64,
    pub base: f64,
    pub ratio: f64,
}

impl Pair {
    /// The same for each of so many parts of the call.
    pub fn over(self, parts: u32) -> Self {
        let parts = f64::from(parts);
        Pair {
            ours: self.ours / parts,
            base: self.base / parts,
            ratio: self.ratio,
        }
    }
}

fn timed(run: impl FnOnce()) -> Duration {
    let start = Instant::now();
    run();
    start.elapsed()
}

/// Calls that fill a batch.
fn batch(case: &mut dyn Case) -> u32 {
    let mut calls = 1;
    while calls < 1 << 20 && timed(|| case.run_base(calls)) < BATCH {
        calls *= 2;
    }
    calls
}

fn median(mut list: Vec<f64>) -> f64 {
    list.sort_by(f64::total_cmp);
    list[list.len() / 2]
}

pub fn times(case: &mut dyn Case) -> Pair {
    let calls = batch(case);
    let mut turns = Vec::new();
    let start = Instant::now();
    while turns.len() < FEWEST || turns.len() < TURNS && start.elapsed() < MOST {
        // each side goes first in every other turn
        let turn = match turns.len() % 2 {
            0 => {
                let ours = timed(|| case.run_ours(calls));
                [ours, timed(|| case.run_base(calls))]
            }
            _ => {
                let base = timed(|| case.run_base(calls));
                [timed(|| case.run_ours(calls)), base]
            }
        };
        turns.push(turn.map(|time| time.as_nanos() as f64 / f64::from(calls)));
    }
    Pair {
        ours: median(turns.iter().map(|turn| turn[0]).collect()),
        base: median(turns.iter().map(|turn| turn[1]).collect()),
        ratio: median(turns.iter().map(|turn| turn[0] / turn[1]).collect()),
    }
}

/// Runs this program's `one` under callgrind, and reads what it collected inside the function.
fn collected(name: &str, side: &str, symbol: &str, calls: u32) -> Option<f64> {
    let output = Command::new("valgrind")
        .args(["--tool=callgrind", "--collect-atstart=no"])
        .args(["--callgrind-out-file=/dev/null"])
        .arg(format!("--toggle-collect={symbol}"))
        .arg(env::current_exe().ok()?)
        .args(["one", name, side, &calls.to_string()])
        .output()
        .ok()?;
    let text = String::from_utf8_lossy(&output.stderr);
    let line = text.lines().find(|line| line.contains("Collected : "))?;
    let count: f64 = line.rsplit(' ').next()?.parse().ok()?;
    (count > 0.0).then_some(count / f64::from(calls))
}

/// None where valgrind is not installed.
pub fn instructions(name: &str, case: &dyn Case) -> Option<Pair> {
    // a few calls, since some cases differ from call to call and others are long
    let calls = match name {
        name if name.starts_with("layout") || name.starts_with("bleaching") => 64,
        _ => 1,
    };
    let [ours, base] = case.symbols();
    let ours = collected(name, "ours", ours, calls)?;
    let base = collected(name, "base", base, calls)?;
    Some(Pair {
        ours,
        base,
        ratio: ours / base,
    })
}
