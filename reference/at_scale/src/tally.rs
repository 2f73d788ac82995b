//! What was compared: cases by kind and by refusal number, and the differences, of which the first few
//! are printed.

use std::collections::BTreeMap;
use std::fmt::Debug;

use crate::{quotas, taking_back};

const SHOWN: u64 = 5;

/// The functions of the interface, with the refusals that each can give.
pub const KINDS: [(&str, &[u32]); 14] = [
    ("interface", &[]),
    ("cache sizes", &[2]),
    ("layout", &[2, 9, 10]),
    ("bleaching", &[2, 9, 10, 11]),
    ("look", &[2, 3, 4, 5, 6, 7, 26, 8, 10]),
    ("fault", &[2, 3, 4, 5, 6, 7, 26, 8, 10, 28, 12]),
    ("release", &[2, 3, 4, 5, 6, 7, 26, 8, 10, 14]),
    ("colours", &[2, 3, 4, 5, 6, 7, 26, 8]),
    ("set quota", &[2, 3, 4, 5, 6, 7, 26, 8, 27]),
    ("recolour", &[2, 3, 4, 5, 6, 7, 26, 8, 9, 12, 13]),
    ("take back", &[2, 3, 4, 5, 6, 7, 26, 8, 9, 31, 32]),
    ("part", &[]),
    // whatever the quotas, so that 26 never shows
    ("plan", &[2, 3, 4, 5, 6, 7, 15, 16, 17, 18, 19, 20, 21, 22]),
    (
        // a program's board has its grants active, so that 7 never shows
        "admit",
        &[1, 2, 3, 4, 5, 6, 15, 16, 17, 18, 19, 20, 21, 22],
    ),
];

/// The rounds of admitted plans: of how many times, how many in all and for one time, and how many times
/// took all that they may, where that is more than 2.
#[derive(Default)]
pub struct Rounds {
    pub times: u64,
    pub all: u64,
    pub most: u32,
    pub at_bound: u64,
}

/// Refusals 16 for one of the lists alone.
#[derive(Default)]
pub struct Short {
    pub times: u64,
    pub rounds: u64,
}

#[derive(Default)]
pub struct Tally {
    pub cases: u64,
    /// The chosen ones among them, and of these the calls around what is held, the faults at chosen lengths of the
    /// table, the calls on tables of chosen shapes and the recolourings with pages in chosen orders.
    pub chosen: u64,
    pub around_held: u64,
    pub lengths: u64,
    pub shapes: u64,
    pub orders: u64,
    pub differences: u64,
    pub rounds: Rounds,
    pub short: Short,
    pub quotas: quotas::Seen,
    pub taken: taking_back::Seen,
    seen: BTreeMap<(&'static str, u32), u64>,
}

impl Tally {
    /// Counts a case with the number that the model gives, and the differences found in it.
    pub fn count(
        &mut self,
        kind: &'static str,
        number: u32,
        case: &impl Debug,
        differences: impl IntoIterator<Item = String>,
    ) {
        self.cases += 1;
        *self.seen.entry((kind, number)).or_default() += 1;
        let found: Vec<String> = differences.into_iter().collect();
        if found.is_empty() {
            return;
        }
        self.differences += 1;
        if self.differences <= SHOWN {
            println!("DIFFERENT {kind}: {case:?}");
            for text in found {
                println!("  {text}");
            }
        }
    }

    fn of(&self, kind: &str, number: u32) -> u64 {
        let all = self.seen.iter();
        all.filter(|((k, n), _)| *k == kind && *n == number)
            .map(|(_, count)| count)
            .sum()
    }

    /// Prints the counts; the answer is whether nothing differs and everything occurs.
    pub fn report(&self) -> bool {
        let mut missing = 0;
        for (kind, numbers) in KINDS {
            let mut line = format!("{kind}: answered {}", self.of(kind, 0));
            for number in numbers {
                let count = self.of(kind, *number);
                line += &format!(", refused {number} {count}");
                missing += u32::from(count == 0);
            }
            missing += u32::from(self.of(kind, 0) == 0);
            println!("{line}");
        }
        for number in (1..=22).chain(26..=28).chain(31..=32) {
            let count: u64 = KINDS.iter().map(|(kind, _)| self.of(kind, number)).sum();
            println!("refusal {number}: {count} cases");
        }
        let Short { times, rounds } = self.short;
        println!("refused 16 for the list of times alone {times}, of rounds alone {rounds}");
        let Rounds {
            times: found,
            all,
            most,
            at_bound,
        } = self.rounds;
        println!(
            "{all} rounds for {found} times, {most} at most for one, {at_bound} at a bound above 2"
        );
        let (quotas, taken) = (self.quotas.counts(), self.taken.counts());
        for counts in [&quotas[..], &taken] {
            let line: Vec<String> = counts
                .iter()
                .map(|(of, count)| format!("{of} {count}"))
                .collect();
            println!("{}", line.join(", "));
        }
        let before = [self.around_held, self.lengths, self.shapes, self.orders];
        let lists = self.chosen - before.iter().sum::<u64>();
        println!(
            "{} calls around what is held, {} faults at chosen lengths of the table, {} calls on tables of chosen \
             shapes, {} recolourings with pages in chosen orders, {lists} takings back with chosen lists",
            self.around_held, self.lengths, self.shapes, self.orders
        );
        let random = [times, rounds, at_bound, lists];
        let counts = quotas.iter().chain(&taken).map(|(_, count)| count);
        for count in counts.chain(&before).chain(&random) {
            missing += u32::from(*count == 0);
        }
        if missing > 0 {
            println!("{missing} kinds of reply never occur");
        }
        println!("{} cases, {} differences", self.cases, self.differences);
        missing == 0 && self.differences == 0
    }
}

/// The difference of two replies, if they differ.
pub fn unlike<T: Debug + PartialEq>(what: &str, found: T, expected: T) -> Option<String> {
    (found != expected).then(|| format!("{what}: {found:?}\n  expected {expected:?}"))
}
