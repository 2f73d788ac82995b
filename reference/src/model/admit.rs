//! The program `admit`: document 01, end of "Examples from the recorder", with refusal 1 of "Refusals in
//! the order tested". It takes the bytes of standard input and gives those of standard output.

use std::fmt;

use crate::model::frames::{Board, DOMAINS, QUOTA};
use crate::model::plans::{Plan, TASKS, TASK_WORDS, VCPUS, VCPU_WORDS};

/// The bytes that are still to be read.
struct Input<'a>(&'a [u8]);

impl Input<'_> {
    /// The next word, unless fewer than four bytes are left.
    fn word(&mut self) -> Option<u32> {
        let (word, rest) = self.0.split_first_chunk()?;
        self.0 = rest;
        Some(u32::from_le_bytes(*word))
    }

    fn words(&mut self, count: usize) -> Option<Vec<u32>> {
        (0..count).map(|_| self.word()).collect()
    }

    /// A count, unless it exceeds its limit: no product with a larger one is ever formed.
    fn count(&mut self, most: usize) -> Option<usize> {
        let count = self.word()? as usize;
        (count <= most).then_some(count)
    }
}

/// The plan in the input, or none where refusal 1 applies: a count exceeds its limit, or the input is not
/// as long as its counts say.
pub fn read(bytes: &[u8]) -> Option<Plan> {
    let mut input = Input(bytes);
    let colours = input.word()?;
    let frames = input.word()?;
    let domains = input.count(DOMAINS)?;
    let mut grants = [0; DOMAINS];
    grants[..domains].copy_from_slice(&input.words(domains)?);
    let reload = input.word()?;
    let vcpus = input.count(VCPUS)?;
    let vcpus = input.words(vcpus * VCPU_WORDS)?;
    let tasks = input.count(TASKS)?;
    let tasks = input.words(tasks * TASK_WORDS)?;
    let board = Board {
        colours,
        frames,
        domains: domains as u32,
        grants,
        active: grants,
        quotas: [QUOTA; DOMAINS],
    };
    input.0.is_empty().then_some(Plan {
        board,
        reload,
        vcpus,
        tasks,
    })
}

#[derive(Clone, Debug, PartialEq, Eq)]
pub enum Verdict {
    Admitted { vcpus: Vec<u32>, tasks: Vec<u32> },
    Refused { number: u32, row: u32 },
}

pub fn judge(bytes: &[u8]) -> Verdict {
    // the program's own list of times has room for the rows of any plan
    let room = VCPUS + TASKS;
    let times = match read(bytes) {
        None => Err((1, 0)),
        Some(plan) => plan
            .times(room)
            .map(|times| (times, plan.vcpus.len() / VCPU_WORDS)),
    };
    match times {
        Err((number, row)) => Verdict::Refused { number, row },
        Ok((mut vcpus, count)) => Verdict::Admitted {
            tasks: vcpus.split_off(count),
            vcpus,
        },
    }
}

/// What the program prints, each line ended by a newline.
impl fmt::Display for Verdict {
    fn fmt(&self, f: &mut fmt::Formatter) -> fmt::Result {
        match self {
            Verdict::Refused { number, row } => writeln!(f, "refused {number} {row}"),
            Verdict::Admitted { vcpus, tasks } => {
                for (row, time) in vcpus.iter().enumerate() {
                    writeln!(f, "vcpu {row} {time}")?;
                }
                for (row, time) in tasks.iter().enumerate() {
                    writeln!(f, "task {row} {time}")?;
                }
                writeln!(f, "admitted")
            }
        }
    }
}

#[cfg(test)]
mod tests {
    use super::*;

    /// The bytes of document 01's example, written out by hand.
    #[rustfmt::skip]
    const EXAMPLE: [u8; 204] = [
        16, 0, 0, 0,   64, 0, 0, 0,   1, 0, 0, 0,   255, 0, 0, 0,   100, 0, 0, 0,
        // one VCPU: core 0, domain 0, period and budget 10,000
        1, 0, 0, 0,
        0, 0, 0, 0,   0, 0, 0, 0,   0x10, 0x27, 0, 0,   0x10, 0x27, 0, 0,
        2, 0, 0, 0,
        // VCPU 0, period and deadline 4,000, colours 0 and 1, sixteen costs of 1,000
        0, 0, 0, 0,   0xA0, 0x0F, 0, 0,   0xA0, 0x0F, 0, 0,   3, 0, 0, 0,
        0xE8, 0x03, 0, 0,   0xE8, 0x03, 0, 0,   0xE8, 0x03, 0, 0,   0xE8, 0x03, 0, 0,
        0xE8, 0x03, 0, 0,   0xE8, 0x03, 0, 0,   0xE8, 0x03, 0, 0,   0xE8, 0x03, 0, 0,
        0xE8, 0x03, 0, 0,   0xE8, 0x03, 0, 0,   0xE8, 0x03, 0, 0,   0xE8, 0x03, 0, 0,
        0xE8, 0x03, 0, 0,   0xE8, 0x03, 0, 0,   0xE8, 0x03, 0, 0,   0xE8, 0x03, 0, 0,
        // VCPU 0, period and deadline 10,000, colours 1 and 2, sixteen costs of 3,000
        0, 0, 0, 0,   0x10, 0x27, 0, 0,   0x10, 0x27, 0, 0,   6, 0, 0, 0,
        0xB8, 0x0B, 0, 0,   0xB8, 0x0B, 0, 0,   0xB8, 0x0B, 0, 0,   0xB8, 0x0B, 0, 0,
        0xB8, 0x0B, 0, 0,   0xB8, 0x0B, 0, 0,   0xB8, 0x0B, 0, 0,   0xB8, 0x0B, 0, 0,
        0xB8, 0x0B, 0, 0,   0xB8, 0x0B, 0, 0,   0xB8, 0x0B, 0, 0,   0xB8, 0x0B, 0, 0,
        0xB8, 0x0B, 0, 0,   0xB8, 0x0B, 0, 0,   0xB8, 0x0B, 0, 0,   0xB8, 0x0B, 0, 0,
    ];

    const DOMAIN_COUNT: usize = 8;
    const RELOAD: usize = 16;
    const VCPU_COUNT: usize = 20;
    const TASK_COUNT: usize = 40;

    fn printed(bytes: &[u8]) -> String {
        judge(bytes).to_string()
    }

    /// The example with another word at that byte.
    fn changed(place: usize, word: u32) -> Vec<u8> {
        let mut bytes = EXAMPLE.to_vec();
        bytes[place..place + 4].copy_from_slice(&word.to_le_bytes());
        bytes
    }

    #[test]
    fn example_of_document_01() {
        let lines = "vcpu 0 10000\ntask 0 1000\ntask 1 5200\nadmitted\n";
        assert_eq!(printed(&EXAMPLE), lines);
    }

    /// The second task's deadline is the twenty-third word of the task rows, and 5,200 its time.
    #[test]
    fn refusal_with_a_row() {
        let deadline = TASK_COUNT + 4 + 22 * 4;
        assert_eq!(printed(&changed(deadline, 5199)), "refused 22 1\n");
        assert_eq!(printed(&changed(deadline, 10_001)), "refused 18 1\n");
        assert_eq!(printed(&changed(deadline - 80, 0)), "refused 18 0\n");
    }

    /// Inside a word, before a count, amid a row, and nothing at all.
    #[test]
    fn cut_anywhere() {
        for length in 0..EXAMPLE.len() {
            assert_eq!(printed(&EXAMPLE[..length]), "refused 1 0\n", "{length}");
        }
    }

    #[test]
    fn more_than_the_counts_say() {
        for more in 1..=80 {
            let input = [&EXAMPLE, &EXAMPLE[..more]].concat();
            assert_eq!(printed(&input), "refused 1 0\n", "{more}");
        }
        assert_eq!(printed(&[EXAMPLE, EXAMPLE].concat()), "refused 1 0\n");
        assert_eq!(printed(&[0; 100_000]), "refused 1 0\n");
    }

    #[test]
    fn counts_that_do_not_tell_the_length() {
        for (place, count) in [(DOMAIN_COUNT, 1), (VCPU_COUNT, 1), (TASK_COUNT, 2)] {
            for other in [count - 1, count + 1, 1 << 31, u32::MAX] {
                assert_eq!(printed(&changed(place, other)), "refused 1 0\n");
            }
            // the same length modulo 2^32, in words or in bytes; the same low bits
            for bit in [8, 16, 28, 29, 30, 31] {
                let wrapped = count + (1 << bit);
                assert_eq!(printed(&changed(place, wrapped)), "refused 1 0\n");
            }
        }
    }

    /// One above each limit, in an input that is as long as that count says.
    #[test]
    fn counts_above_their_limits() {
        let put = |bytes: &mut Vec<u8>, place: usize, more: &[u8]| {
            bytes.splice(place..place, more.iter().copied());
        };
        let mut domains = changed(DOMAIN_COUNT, 9);
        put(&mut domains, RELOAD, &[1; 8 * 4]);
        let mut vcpus = changed(VCPU_COUNT, 17);
        put(&mut vcpus, TASK_COUNT, &[1; 16 * 16]);
        let mut tasks = changed(TASK_COUNT, 33);
        put(&mut tasks, EXAMPLE.len(), &[1; 31 * 80]);
        for mut input in [domains, vcpus, tasks] {
            assert_eq!(printed(&input), "refused 1 0\n");
            // N is 17, but 1 comes before it
            input[0] = 17;
            assert_eq!(printed(&input), "refused 1 0\n");
        }
        // at the limit other refusals follow: the grants 0x01010101 have bits above colour 15
        let mut domains = changed(DOMAIN_COUNT, 8);
        put(&mut domains, RELOAD, &[1; 7 * 4]);
        assert_eq!(printed(&domains), "refused 5 1\n");
        let mut vcpus = changed(VCPU_COUNT, 16);
        put(&mut vcpus, TASK_COUNT, &[1; 15 * 16]);
        assert_eq!(printed(&vcpus), "refused 17 1\n");
        let mut tasks = changed(TASK_COUNT, 32);
        put(&mut tasks, EXAMPLE.len(), &[1; 30 * 80]);
        assert_eq!(printed(&tasks), "refused 18 2\n");
    }

    #[test]
    fn before_everything() {
        let mut input = changed(0, 3);
        assert_eq!(printed(&input), "refused 2 0\n");
        input.push(0);
        assert_eq!(printed(&input), "refused 1 0\n");
        input.truncate(EXAMPLE.len() - 1);
        assert_eq!(printed(&input), "refused 1 0\n");
    }

    #[test]
    fn counts_of_none() {
        let words = |words: &[u32]| -> Vec<u8> {
            words.iter().flat_map(|word| word.to_le_bytes()).collect()
        };
        assert_eq!(printed(&words(&[0, 0, 0, 0, 0, 0])), "refused 2 0\n");
        assert_eq!(printed(&words(&[1, 0, 0, 0, 0, 0])), "refused 3 0\n");
        assert_eq!(printed(&words(&[1, 1, 0, 0, 0, 0])), "refused 4 0\n");
        assert_eq!(printed(&words(&[1, 1, 1, 1, 0, 0, 0])), "refused 15 0\n");
        let no_tasks = words(&[1, 1, 1, 1, 0, 1, 0, 0, 1, 1, 0]);
        assert_eq!(printed(&no_tasks), "refused 16 0\n");
    }

    #[test]
    fn words_keep_all_their_bits() {
        assert_eq!(printed(&changed(0, (1 << 16) + 16)), "refused 2 0\n");
        assert_eq!(printed(&changed(4, 65_600)), "refused 3 0\n");
        assert_eq!(printed(&changed(12, 0x1_0001)), "refused 5 0\n");
        assert_eq!(printed(&changed(RELOAD, 65_541)), "refused 15 0\n");
        assert_eq!(printed(&changed(VCPU_COUNT + 4, 1 << 16)), "refused 17 0\n");
    }
}
