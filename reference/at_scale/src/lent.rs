//! A list or a board as it is lent to the library, with words before and behind it that no call may touch.
//! Their odd number leaves it aligned for its words and for nothing larger.

use std::fmt::Debug;

use reference::model::frames::Board;

const AROUND: usize = 7;

pub struct Lent<T> {
    words: Vec<T>,
    guard: T,
}

impl<T: Copy + PartialEq + Debug> Lent<T> {
    pub fn new(list: &[T], guard: T) -> Self {
        let mut words = vec![guard; AROUND];
        words.extend(list);
        words.extend([guard; AROUND]);
        Lent { words, guard }
    }

    pub fn list(&self) -> &[T] {
        &self.words[AROUND..self.words.len() - AROUND]
    }

    pub fn list_mut(&mut self) -> &mut [T] {
        let end = self.words.len() - AROUND;
        &mut self.words[AROUND..end]
    }

    /// What differs from the list expected, if anything.
    pub fn difference(&self, what: &str, expected: &[T]) -> Option<String> {
        let end = self.words.len() - AROUND;
        let around = self.words[..AROUND].iter().chain(&self.words[end..]);
        if around.into_iter().any(|word| *word != self.guard) {
            return Some(format!("{what}: written outside the list"));
        }
        (self.list() != expected)
            .then(|| format!("{what}: {:?}\n  expected {expected:?}", self.list()))
    }
}

const AROUND_BOARD: [u32; AROUND] = [0x5AA5_C33C; AROUND];

/// The model's board in the words of the interface.
pub fn words(board: &Board) -> juzvanec::Board {
    juzvanec::Board {
        colours: board.colours,
        frames: board.frames,
        domains: board.domains,
        grants: board.grants,
        active: board.active,
        quotas: board.quotas,
    }
}

#[repr(C)]
pub struct LentBoard {
    before: [u32; AROUND],
    pub board: juzvanec::Board,
    behind: [u32; AROUND],
}

impl LentBoard {
    pub fn new(board: &Board) -> Self {
        LentBoard {
            before: AROUND_BOARD,
            board: words(board),
            behind: AROUND_BOARD,
        }
    }

    /// What differs from the board expected, if anything, in any of its words.
    pub fn difference(&self, expected: &Board) -> Option<String> {
        if [self.before, self.behind] != [AROUND_BOARD; 2] {
            return Some("board: written outside of it".to_string());
        }
        let expected = words(expected);
        (self.board != expected)
            .then(|| format!("board: {:?}\n  expected {expected:?}", self.board))
    }
}
