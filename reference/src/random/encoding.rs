//! Inputs of the program `admit` made from plans, and the lengths and counts at which they are broken:
//! document 01, end of "Examples from the recorder", and refusal 1.

use crate::model::plans::{Plan, TASK_WORDS, VCPU_WORDS};

/// The longest input: 8 domains, 16 VCPUs and 32 tasks.
pub const MOST_BYTES: usize = 2872;

pub const DOMAIN_COUNT: usize = 2;
pub const GRANTS: usize = 3;

/// Where the parts behind the grants begin in a plan's input, in words.
#[derive(Clone, Copy, Debug, PartialEq, Eq)]
pub struct Places {
    pub reload: usize,
    pub vcpu_count: usize,
    pub vcpus: usize,
    pub task_count: usize,
    pub tasks: usize,
    pub end: usize,
}

pub fn places(plan: &Plan) -> Places {
    let reload = GRANTS + plan.board.domains as usize;
    let vcpus = reload + 2;
    let task_count = vcpus + plan.vcpus.len();
    Places {
        reload,
        vcpu_count: reload + 1,
        vcpus,
        task_count,
        tasks: task_count + 1,
        end: task_count + 1 + plan.tasks.len(),
    }
}

pub fn words(plan: &Plan) -> Vec<u32> {
    let board = &plan.board;
    let mut words = vec![board.colours, board.frames, board.domains];
    words.extend(&board.grants[..board.domains as usize]);
    words.push(plan.reload);
    words.push((plan.vcpus.len() / VCPU_WORDS) as u32);
    words.extend(&plan.vcpus);
    words.push((plan.tasks.len() / TASK_WORDS) as u32);
    words.extend(&plan.tasks);
    words
}

pub fn bytes(words: &[u32]) -> Vec<u8> {
    words.iter().flat_map(|word| word.to_le_bytes()).collect()
}

pub fn input(plan: &Plan) -> Vec<u8> {
    bytes(&words(plan))
}

/// Lengths in words to which the plan's input is cut: none, before and behind each count, amid the grants
/// and the rows of both kinds, a row short and a word short.
pub fn cuts(plan: &Plan) -> Vec<usize> {
    let p = places(plan);
    let mut cuts = vec![0, 1, DOMAIN_COUNT, GRANTS];
    cuts.extend([(GRANTS + p.reload) / 2, p.reload, p.vcpu_count, p.vcpus]);
    cuts.extend([p.vcpus + 1, p.task_count - 1, p.task_count, p.tasks]);
    cuts.extend([p.tasks + 1, p.tasks + 4, p.end - TASK_WORDS, p.end - 1]);
    cuts.sort();
    cuts.dedup();
    cuts
}

/// What may stand behind a plan's input: bytes, words, a row of either kind, the input once more.
pub fn trailers(plan: &Plan) -> Vec<Vec<u8>> {
    let last_vcpu = &plan.vcpus[plan.vcpus.len() - VCPU_WORDS..];
    let last_task = &plan.tasks[plan.tasks.len() - TASK_WORDS..];
    vec![
        vec![0],
        b"\n".to_vec(),
        vec![0; 2],
        vec![255; 3],
        vec![0; 4],
        bytes(&[1]),
        vec![0; 5],
        vec![0; 8],
        bytes(last_vcpu),
        bytes(last_task),
        input(plan),
    ]
}

/// Numbers in place of a count, none of which the length fits: those beside it; those with the same low 8
/// or 16 bits; and those at which a length in words or bytes, taken modulo 2^32, would fit or nearly so.
pub fn wrong_counts(count: u32) -> Vec<u32> {
    let mut wrong = vec![count.wrapping_sub(1), count + 1];
    for bit in [8, 16, 24, 28, 29, 30, 31] {
        wrong.extend([count + (1 << bit), 1 << bit]);
    }
    wrong.extend([(1 << 30) - 1, (1 << 31) - 1, (1 << 31) + (1 << 30) + count]);
    wrong.extend((1..=4).map(|below| u32::MAX - below + 1));
    wrong
}
