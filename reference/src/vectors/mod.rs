//! Vectors: the input of a program `vectors_*` and what it must write. Each set reports how often each
//! refusal occurs, and fails where one that its operations can give never does, or never with some row.

mod admit;
mod colours;
mod even;
mod frames;
mod nested;
mod page_order;
mod plans;
mod quota;
mod rounds;
mod taking_back;

use std::collections::BTreeMap;
use std::fs;
use std::ops::Range;
use std::path::{Path, PathBuf};

pub use admit::inputs as admit_inputs;

use crate::model::frames::Board;
use crate::model::reply::Reply;

pub struct Set {
    crate_name: &'static str,
    stdin: Vec<u8>,
    stdout: Vec<u8>,
    cases: u32,
    /// How often each operation gave each refusal (0: an answer) with each row, and those that must
    /// occur.
    seen: BTreeMap<(&'static str, u32, u32), u32>,
    wanted: Vec<(&'static str, u32, u32)>,
}

pub fn all(seed: u64) -> Vec<Set> {
    vec![
        colours::set(seed),
        frames::set(seed),
        plans::set(seed),
        admit::set(seed),
    ]
}

fn hash(words: impl IntoIterator<Item = u32>) -> u32 {
    let step = |h: u32, word| h.wrapping_mul(16_777_619).wrapping_add(word);
    words.into_iter().fold(0, step)
}

/// The board of a plan, whose quotas nothing tests: they are 4,096, and not among the words.
fn plan_board_words(board: &Board) -> Vec<u32> {
    let mut words = vec![board.colours, board.frames, board.domains];
    words.extend(board.grants);
    words.extend(board.active);
    words
}

fn board_words(board: &Board) -> Vec<u32> {
    let mut words = plan_board_words(board);
    words.extend(board.quotas);
    words
}

fn put(set: &mut Set, word: impl TryInto<u32>) {
    let Ok(word) = word.try_into() else {
        panic!("a word of the vectors has 32 bits");
    };
    set.stdin.extend(word.to_le_bytes());
}

impl Set {
    fn new(crate_name: &'static str) -> Self {
        Set {
            crate_name,
            stdin: Vec::new(),
            stdout: Vec::new(),
            cases: 0,
            seen: BTreeMap::new(),
            wanted: Vec::new(),
        }
    }

    /// Answers of the operation, and its refusals with row 0.
    fn want(&mut self, operation: &'static str, numbers: &[u32]) {
        self.wanted.push((operation, 0, 0));
        self.wanted
            .extend(numbers.iter().map(|number| (operation, *number, 0)));
    }

    fn want_rows(&mut self, operation: &'static str, number: u32, rows: Range<u32>) {
        self.wanted.extend(rows.map(|row| (operation, number, row)));
    }

    fn line(&mut self, text: &str) {
        self.stdout.extend(text.as_bytes());
        self.stdout.push(b'\n');
    }

    /// Counts a case with its refusal, or 0 and row 0 for an answer.
    fn count(&mut self, operation: &'static str, number: u32, row: u32) {
        self.cases += 1;
        *self.seen.entry((operation, number, row)).or_default() += 1;
    }

    /// Counts a case, and writes the line of its reply.
    fn reply<A: std::fmt::Display>(&mut self, operation: &'static str, reply: Reply<A>) {
        let (number, row, text) = match reply {
            Reply::Answer(a) => (0, 0, a.to_string()),
            Reply::Refused { number, row } => (number, row, format!("refused {number} {row}")),
        };
        self.count(operation, number, row);
        self.line(&text);
    }

    pub fn report(&self) -> bool {
        println!("{}: {} cases", self.crate_name, self.cases);
        let mut rows_of: BTreeMap<_, Vec<(u32, u32)>> = BTreeMap::new();
        for ((operation, number, row), count) in &self.seen {
            let rows = rows_of.entry((operation, number)).or_default();
            rows.push((*row, *count));
        }
        for ((operation, number), rows) in rows_of {
            let what = match number {
                0 => "answered".to_string(),
                _ => format!("refused {number}"),
            };
            let total: u32 = rows.iter().map(|(_, count)| count).sum();
            let by_row: Vec<String> = match rows.as_slice() {
                [(0, _)] => Vec::new(),
                rows => rows
                    .iter()
                    .map(|(row, count)| format!("; row {row}: {count}"))
                    .collect(),
            };
            println!("  {operation}: {what} {total} times{}", by_row.concat());
        }
        let missing: Vec<_> = self
            .wanted
            .iter()
            .filter(|key| !self.seen.contains_key(key))
            .collect();
        for (operation, number, row) in &missing {
            println!("  {operation}: refusal {number} with row {row} never occurs");
        }
        missing.is_empty()
    }

    fn files(&self, dir: &Path) -> [(PathBuf, &[u8]); 2] {
        let dir = dir.join(self.crate_name);
        [
            (dir.join("stdin"), &self.stdin),
            (dir.join("stdout"), &self.stdout),
        ]
    }

    pub fn write(&self, dir: &Path) -> bool {
        let mut good = true;
        for (path, bytes) in self.files(dir) {
            if let Err(error) = fs::write(&path, bytes) {
                println!("  {}: {error}", path.display());
                good = false;
            }
        }
        good
    }

    pub fn check(&self, dir: &Path) -> bool {
        let mut good = true;
        for (path, bytes) in self.files(dir) {
            let same = fs::read(&path).is_ok_and(|found| found == bytes);
            if !same {
                println!("  {} is not what the tool writes", path.display());
                good = false;
            }
        }
        good
    }
}

#[cfg(test)]
mod tests {
    use super::*;

    #[test]
    fn hash_of_words() {
        assert_eq!(hash([]), 0);
        assert_eq!(hash([5]), 5);
        assert_eq!(hash([1, 2]), 16_777_621);
        assert_eq!(
            u64::from(hash([1, 2, 3])),
            (16_777_621 * 16_777_619 + 3) % (1 << 32)
        );
    }
}
