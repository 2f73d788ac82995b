//! The comparison of a compiled program `admit` with the tool's own: on random inputs, good and broken, its
//! output must be the same byte for byte and its exit status success.

use std::collections::BTreeMap;
use std::io;
use std::time::Duration;

use crate::checks::pipe::{any_pieces, run, Outcome, Piece};
use crate::model::admit::{judge, Verdict};
use crate::random::inputs::{any_input, edges};
use crate::random::Random;
use crate::vectors::admit_inputs;

/// Of so many differences the input and both outputs are printed.
const PRINTED: u32 = 3;

/// After so many inputs on which the program did not end, no more are tried.
const MOST_LATE: u32 = 3;

/// Runs the program (its path, and any arguments) on so many inputs, with a time limit for each: those about as
/// long as the longest plan first, and of the others one in four from the vectors as long as these last.
pub fn compare(program: &[&str], cases: u32, seed: u64, limit: Duration) -> io::Result<Tally> {
    let mut random = Random::new(seed);
    let mut first = edges(&mut random).into_iter();
    let mut of_vectors = admit_inputs(seed).into_iter();
    let mut tally = Tally::default();
    while tally.cases < cases && tally.late < MOST_LATE {
        let next = first.next().or_else(|| match random.below(4) {
            0 => of_vectors.next(),
            _ => None,
        });
        let input = next.unwrap_or_else(|| any_input(&mut random));
        let pieces = any_pieces(&mut random, input.len());
        let outcome = run(program, input.clone(), pieces.clone(), limit)?;
        tally.count(&input, &pieces, &outcome);
    }
    Ok(tally)
}

#[derive(Clone, Debug, Default, PartialEq, Eq)]
pub struct Tally {
    pub cases: u32,
    pub differences: u32,
    late: u32,
    /// How many inputs have each refusal (0: admitted).
    seen: BTreeMap<u32, u32>,
    whole: u32,
}

impl Tally {
    pub fn report(&self) {
        for (number, count) in &self.seen {
            match number {
                0 => println!("admitted {count} times"),
                _ => println!("refused {number} {count} times"),
            }
        }
        let in_pieces = self.cases - self.whole;
        println!(
            "written whole {} times, in pieces {in_pieces} times",
            self.whole
        );
        if self.late >= MOST_LATE {
            println!("stopped, since {} cases did not end in time", self.late);
        }
        println!("{} cases, {} differences", self.cases, self.differences);
    }

    /// Counts a case, and prints it where it is one of the first to differ.
    fn count(&mut self, input: &[u8], pieces: &[Piece], outcome: &Outcome) {
        let verdict = judge(input);
        let number = match verdict {
            Verdict::Admitted { .. } => 0,
            Verdict::Refused { number, .. } => number,
        };
        self.cases += 1;
        self.whole += u32::from(pieces.len() <= 1);
        *self.seen.entry(number).or_default() += 1;
        let expected = verdict.to_string();
        let same = match outcome {
            Outcome::Ended { output, status } => output == expected.as_bytes() && status.success(),
            Outcome::Late => false,
        };
        if same {
            return;
        }
        self.differences += 1;
        self.late += u32::from(*outcome == Outcome::Late);
        if self.differences <= PRINTED {
            println!("case {}, written {}:", self.cases, in_words(pieces));
            println!("{}", hex(input));
            println!("expected:\n{expected}found:\n{}", found(outcome));
        }
    }
}

fn found(outcome: &Outcome) -> String {
    match outcome {
        Outcome::Late => "no end in time".to_string(),
        Outcome::Ended { output, status } => {
            format!("{}({status})", String::from_utf8_lossy(output))
        }
    }
}

/// The lengths of the first few pieces.
fn in_words(pieces: &[Piece]) -> String {
    let few = pieces.iter().take(8);
    let lengths: Vec<String> = few.map(|piece| piece.length.to_string()).collect();
    let more = match pieces.len() {
        0..=8 => "",
        _ => " and so on",
    };
    match pieces.len() {
        0 | 1 => "whole".to_string(),
        count => format!("in {count} pieces of {}{more}", lengths.join(", ")),
    }
}

/// Two digits for each byte; a long run of the last byte is given by its length.
fn hex(input: &[u8]) -> String {
    let last = input.last();
    let run = input.iter().rev().take_while(|byte| Some(*byte) == last);
    let run = run.count();
    let digits = |bytes: &[u8]| -> String { bytes.iter().map(|b| format!("{b:02x}")).collect() };
    match last {
        Some(last) if run > 64 => {
            format!(
                "{} and {run} bytes {last:02x}",
                digits(&input[..input.len() - run])
            )
        }
        Some(_) => digits(input),
        None => "(empty)".to_string(),
    }
}

#[cfg(test)]
mod tests {
    use super::*;

    fn of_script(script: &str, cases: u32, limit: Duration) -> Tally {
        compare(&["/bin/sh", "-c", script], cases, 7, limit).unwrap()
    }

    /// A program that gives one answer to all is right where that is the answer, and nowhere else.
    #[test]
    fn one_answer_to_all() {
        let limit = Duration::from_secs(20);
        let tally = of_script("cat >/dev/null; echo refused 1 0", 80, limit);
        assert_eq!(tally.cases, 80);
        assert!(tally.seen[&1] > 0);
        assert_eq!(tally.differences, 80 - tally.seen[&1]);
        // one that does not read at all is no different
        assert_eq!(of_script("echo refused 1 0", 80, limit), tally);
        // without the newline, or without success, it is right nowhere
        let unended = of_script("cat >/dev/null; printf 'refused 1 0'", 10, limit);
        assert_eq!(unended.differences, 10);
        let failed = of_script("cat >/dev/null; echo refused 1 0; exit 1", 10, limit);
        assert_eq!(failed.differences, 10);
    }

    #[test]
    fn a_program_that_hangs() {
        let tally = of_script("exec sleep 5", 100, Duration::from_millis(100));
        assert_eq!((tally.cases, tally.differences), (MOST_LATE, MOST_LATE));
    }

    #[test]
    fn a_program_that_is_not_there() {
        assert!(compare(&["/nowhere/admit"], 1, 7, Duration::from_secs(1)).is_err());
    }

    #[test]
    fn inputs_in_hex() {
        assert_eq!(hex(&[]), "(empty)");
        assert_eq!(hex(&[0, 16, 255]), "0010ff");
        assert_eq!(
            hex(&[[1; 1].as_slice(), &[2; 70]].concat()),
            "01 and 70 bytes 02"
        );
    }
}
