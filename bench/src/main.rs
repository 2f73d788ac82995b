//! The benchmark: the linked library through its C interface against a baseline in plain Rust, by the
//! same methods and on the same inputs, in one run. Both sides are seen to answer alike before anything
//! is measured. It prints Markdown.

mod cases;
mod inputs;
mod measure;
mod ours;

use std::process::ExitCode;

use inputs::{all, by_rounds, by_sort, full_size, growth, Growth, Named};
use measure::Pair;

const USAGE: &str = "usage: bench check | times | instructions | all
       bench one CASE ours|base CALLS
  check         says whether both sides answer alike
  times         medians in nanoseconds for each call
  instructions  counts of instructions inside each function, by valgrind
  all           both, as in docs/BENCHMARK.md
  one           calls one side of one case";

/// The ratio that is aimed at.
const GOAL: f64 = 1.1;

fn main() -> ExitCode {
    let words: Vec<String> = std::env::args().skip(1).collect();
    let words: Vec<&str> = words.iter().map(String::as_str).collect();
    let good = match words.as_slice() {
        ["check"] => check(),
        ["times"] => check() && report(&[What::Times]),
        ["instructions"] => check() && report(&[What::Instructions]),
        ["all"] => check() && report(&[What::Times, What::Instructions]),
        ["one", name, side, calls] => one(name, side, calls),
        _ => {
            eprintln!("{USAGE}");
            return ExitCode::from(2);
        }
    };
    match good {
        true => ExitCode::SUCCESS,
        false => ExitCode::FAILURE,
    }
}

/// Whether both sides answer alike in every case, of which there must be some.
fn check() -> bool {
    let (mut alike, mut unlike) = (0, 0);
    for mut named in all() {
        match named.case.agree() {
            true => alike += 1,
            false => {
                eprintln!("{}: the two sides do not answer alike", named.name);
                unlike += 1;
            }
        }
    }
    eprintln!("{alike} cases alike, {unlike} not");
    alike > 0 && unlike == 0
}

/// What is measured of a case.
#[derive(Clone, Copy)]
enum What {
    Times,
    Instructions,
}

impl What {
    fn head(self) -> &'static str {
        match self {
            What::Times => " ours, ns | Rust, ns | ratio |",
            What::Instructions => " ours, instructions | Rust, instructions | ratio |",
        }
    }

    /// None where it cannot be measured here.
    fn measure(self, named: &mut Named) -> Option<Pair> {
        match self {
            What::Times => Some(measure::times(&mut *named.case)),
            What::Instructions => measure::instructions(&named.name, &*named.case),
        }
    }

    fn number(self, number: f64) -> String {
        match self {
            What::Times if number < 1000.0 => format!("{number:.1}"),
            _ => format!("{number:.0}"),
        }
    }

    /// The two numbers and their ratio, with a mark above the goal.
    fn cells(self, pair: Option<Pair>) -> [String; 3] {
        let Some(pair) = pair else {
            return [(); 3].map(|()| "–".to_string());
        };
        let ratio = format!("{:.2}", pair.ratio);
        let ratio = match pair.ratio > GOAL {
            true => format!("{ratio} (above)"),
            false => ratio,
        };
        [self.number(pair.ours), self.number(pair.base), ratio]
    }
}

fn table(heading: &str, text: &str, cases: Vec<Named>, whats: &[What]) {
    println!("\n## {heading}\n\n{text}\n");
    let heads: String = whats.iter().map(|what| what.head()).collect();
    println!("| call |{heads}\n|---|{}", "--:|".repeat(3 * whats.len()));
    for mut named in cases {
        let mut row = format!("| {} |", named.name);
        for what in whats {
            let [ours, base, ratio] = what.cells(what.measure(&mut named));
            row += &format!(" {ours} | {base} | {ratio} |");
        }
        println!("{row}");
    }
}

/// A row for each call and a column for each size.
fn growth_table(growth: Growth, what: What) {
    let sizes = growth.sizes.iter();
    let heads: String = sizes
        .map(|size| format!(" {} {size} |", growth.unit))
        .collect();
    println!(
        "\n| call |{heads}\n|---|{}",
        "--:|".repeat(growth.sizes.len())
    );
    let mut columns: Vec<_> = growth.cases.into_iter().map(Vec::into_iter).collect();
    loop {
        let cases: Vec<Named> = columns.iter_mut().filter_map(Iterator::next).collect();
        let Some(first) = cases.first() else {
            return;
        };
        let mut row = format!("| {} |", first.kind);
        for mut named in cases {
            let [ours, base, ratio] = what.cells(what.measure(&mut named));
            row += &format!(" {ours} / {base}, {ratio} |");
        }
        println!("{row}");
    }
}

/// What a round costs: a call's numbers over the rounds that it takes.
fn rounds_table(whats: &[What]) {
    println!(
        "\n## A round\n\nA whole call over all its rounds, of which nearly all are of the last task's search, \
         with that many earlier rows. The long plan is admitted, and its rounds are those that both sides \
         return; the hard plan is refused, and its rounds are counted apart from both.\n"
    );
    let heads: String = whats.iter().map(|what| what.head()).collect();
    println!(
        "| call | earlier rows | rounds |{heads}\n|---|--:|--:|{}",
        "--:|".repeat(3 * whats.len())
    );
    for (mut named, earlier) in by_rounds() {
        let Some(rounds) = named.case.rounds() else {
            continue;
        };
        let mut row = format!("| {} | {earlier} | {rounds} |", named.kind);
        for what in whats {
            let pair = what.measure(&mut named);
            let [ours, base, ratio] = what.cells(pair.map(|pair| pair.over(rounds)));
            row += &format!(" {ours} | {base} | {ratio} |");
        }
        println!("{row}");
    }
}

fn report(whats: &[What]) -> bool {
    let board = "N = 16. Look, fault, colours, set quota and boot are on a board of four domains. Quotas are those \
                 at first, but for a fault at the quota, which is refused with 28. Each take back undoes the \
                 recolouring of as many frames, with the triples in page order or shuffled.";
    let plan = "With nested sets all tasks are on one VCPU, and each shares a colour with the next. The hard \
                plan is refused with 22 at its last row, after that many rounds.";
    let text = format!("{board} {plan}");
    table("Calls at full size", &text, full_size(), whats);
    let sort = "The same recolourings with a baseline that lists the triples as it moves the frames, and then sorts \
                them with `sort_by_key`.";
    table("Recolouring against a sort", sort, by_sort(), whats);
    rounds_table(whats);
    for what in whats {
        match what {
            What::Times => println!("\n## How the time grows\n\nNanoseconds, ours / Rust, ratio."),
            What::Instructions => {
                println!("\n## How the instructions grow\n\nOurs / Rust, ratio.")
            }
        }
        for growth in growth() {
            growth_table(growth, *what);
        }
    }
    true
}

/// One side of the case with that name.
fn one(name: &str, side: &str, calls: &str) -> bool {
    let found = all().find(|named| named.name == name);
    let (Some(mut named), Ok(calls)) = (found, calls.parse()) else {
        return false;
    };
    match side {
        "ours" => named.case.run_ours(calls),
        "base" => named.case.run_base(calls),
        _ => return false,
    }
    true
}
