//! Vectors of the program `admit`: whole inputs as document 01 has them at the end of "Examples from the
//! recorder", good ones and all kinds of broken ones. The file is a little-endian 32-bit word with the
//! count of cases, then for each case a word with its length in bytes, and its bytes. The outputs stand one
//! after another with nothing between them.

use super::plans::lone_vcpu;
use super::{nested, put, Set};
use crate::model::admit::{judge, Verdict};
use crate::model::plans::{Plan, LONGEST, RELOAD, TASKS, TASK_WORDS, VCPUS, VCPU_WORDS};
use crate::random::boards::spoil;
use crate::random::encoding::{
    bytes, cuts, input, places, trailers, words, wrong_counts, DOMAIN_COUNT, GRANTS, MOST_BYTES,
};
use crate::random::inputs::{any_input, rubbish};
use crate::random::plans::{
    admitted, largest, spoil_row, stretched, task_row, vcpu_row, COLOUR_SET, COSTS, DEADLINE,
    PERIOD, VCPU_BUDGET, VCPU_PERIOD,
};
use crate::random::Random;

pub fn set(seed: u64) -> Set {
    let mut set = Set::new("vectors_admit");
    // not 7: the grants are the active sets, too
    set.want("admit", &[1, 2, 3, 4, 15, 16]);
    for (number, rows) in ROWS {
        set.want_rows("admit", number, rows);
    }
    let cases = inputs(seed);
    put(&mut set, cases.len());
    for case in &cases {
        add(&mut set, case);
    }
    set
}

pub fn inputs(seed: u64) -> Vec<Vec<u8>> {
    let mut random = Random::new(seed);
    let mut cases = examples();
    cases.extend(shapes(&mut random));
    cases.extend(long_periods(&mut random));
    cases.extend(shortest_cut());
    cases.extend(cut_and_lengthened(&mut random));
    cases.extend(miscounted());
    cases.extend(over_the_limits());
    cases.extend(no_rows());
    cases.extend(wide_words());
    cases.extend(spoilt_rows(&mut random));
    cases.extend(two_faults());
    cases.extend(long_inputs(&mut random));
    cases.extend((0..ANY).map(|_| rubbish(&mut random)));
    cases.extend((0..ANY).map(|_| any_input(&mut random)));
    // some of the plans in which preemptions nest
    cases.extend(nested::plans(&mut random).iter().step_by(11).map(input));
    cases
}

/// The refusals that name a domain or row, and those that they can name: of two that share a colour the
/// lower, so never the last; of rows out of order the later; and no VCPU that has no other before it.
const ROWS: [(u32, std::ops::Range<u32>); 8] = [
    (5, 0..8),
    (6, 0..7),
    (17, 0..16),
    (18, 0..32),
    (19, 1..32),
    (20, 0..31),
    (21, 1..16),
    (22, 0..32),
];

/// Inputs of any kind, and as many more that are no plan's: drawn as for the comparison.
const ANY: usize = 20;

fn add(set: &mut Set, case: &[u8]) {
    put(set, case.len());
    set.stdin.extend(case);
    let verdict = judge(case);
    match verdict {
        Verdict::Admitted { .. } => set.count("admit", 0, 0),
        Verdict::Refused { number, row } => set.count("admit", number, row),
    }
    set.stdout.extend(verdict.to_string().as_bytes());
}

/// The input, of which that refusal is expected.
fn refused(input: Vec<u8>, number: u32, row: u32) -> Vec<u8> {
    assert_eq!(judge(&input), Verdict::Refused { number, row });
    input
}

/// The input of a plan that is admitted.
fn good(plan: &Plan) -> Vec<u8> {
    let input = input(plan);
    assert!(matches!(judge(&input), Verdict::Admitted { .. }));
    input
}

/// The example of document 01 that it gives word for word.
fn example() -> Plan {
    let rows = [[4000, 4000, 0x3, 1000], [10_000, 10_000, 0x6, 3000]];
    lone_vcpu(255, 100, [10_000, 10_000], &rows)
}

/// The example of the program, the other plans among the examples of document 01, and that of document 02,
/// No. 3.
fn examples() -> Vec<Vec<u8>> {
    let printed = "vcpu 0 10000\ntask 0 1000\ntask 1 5200\nadmitted\n";
    assert_eq!(judge(&input(&example())).to_string(), printed);
    let mut cases = vec![good(&example())];
    let mut reloading = example();
    task_row(&mut reloading, 1)[COSTS..].fill(2500);
    cases.push(good(&reloading));
    let mut without = example();
    without.reload = 0;
    cases.push(good(&without));
    let lone = |deadline| lone_vcpu(255, 0, [5000, 3000], &[[7000, deadline, 1, 3000]]);
    cases.push(good(&lone(7000)));
    cases.push(refused(input(&lone(6999)), 22, 0));
    let three = |last| {
        let row = |set, cost| [10_000, 10_000, set, cost];
        let rows = [row(1, 4000), row(2, 4000), row(4, last)];
        lone_vcpu(255, 0, [10_000, 10_000], &rows)
    };
    cases.push(good(&three(2000)));
    cases.push(refused(input(&three(3000)), 22, 2));
    let rows = [0x1, 0x1, 0x2].map(|set| [10_000, 10_000, set, 1000]);
    let nested = lone_vcpu(255, 100, [10_000, 10_000], &rows);
    let printed = "vcpu 0 10000\ntask 0 1000\ntask 1 2100\ntask 2 3100\nadmitted\n";
    assert_eq!(judge(&input(&nested)).to_string(), printed);
    cases.push(good(&nested));
    cases
}

/// Admitted plans of 1 to 16 VCPUs and 1 to 32 tasks, the shortest and the longest input among them.
fn shapes(random: &mut Random) -> Vec<Vec<u8>> {
    let mut cases: Vec<Vec<u8>> = (0..32)
        .map(|i| good(&admitted(random, 1 + i % VCPUS, 1 + i * 11 % TASKS)))
        .collect();
    for (vcpus, tasks) in [(1, 1), (1, 2), (2, 1), (1, 32), (16, 1)] {
        cases.push(good(&admitted(random, vcpus, tasks)));
    }
    cases.push(good(&shortest()));
    for _ in 0..4 {
        cases.push(good(&largest(random)));
        assert_eq!(cases.last().map(Vec::len), Some(MOST_BYTES));
    }
    cases
}

/// One domain, one VCPU and one task with all numbers at their lowest.
fn shortest() -> Plan {
    let mut plan = lone_vcpu(1, 0, [1, 1], &[[1, 1, 1, 1]]);
    plan.board.colours = 1;
    plan.board.frames = 1;
    plan
}

/// Periods, deadlines and times up to a second, where a VCPU or a task is just in time or just late.
fn long_periods(random: &mut Random) -> Vec<Vec<u8>> {
    let mut cases = Vec::new();
    let whole = [LONGEST, LONGEST];
    let row = |set, cost| [LONGEST, LONGEST, set, cost];
    cases.push(good(&lone_vcpu(1, RELOAD, whole, &[row(1, LONGEST)])));
    let sharing = |cost| lone_vcpu(3, RELOAD, whole, &[row(3, 1), row(3, cost)]);
    cases.push(good(&sharing(LONGEST - 1 - 2 * RELOAD)));
    cases.push(refused(input(&sharing(LONGEST - 2 * RELOAD)), 22, 1));
    // a budget of 1 has supplied nothing before 2 × (P − 1) + 1
    let least = |deadline| lone_vcpu(1, 0, [500_000, 1], &[[LONGEST, deadline, 1, 1]]);
    cases.push(good(&least(999_999)));
    cases.push(refused(input(&least(999_998)), 22, 0));
    let mut two = lone_vcpu(1, 0, [LONGEST, LONGEST - 1], &[row(1, 1)]);
    two.vcpus.extend([0, 0, LONGEST, 1]);
    cases.push(good(&two));
    vcpu_row(&mut two, 1)[VCPU_BUDGET] = 2;
    cases.push(refused(input(&two), 21, 1));
    for i in 0..8 {
        let plan = stretched(admitted(random, 1 + i % 4, 1 + i % 5));
        cases.push(good(&plan));
        let mut late = plan.clone();
        if spoil_row(random, &mut late, 22, i % 5) {
            cases.push(refused(input(&late), 22, i as u32 % 5));
        }
    }
    cases
}

/// The shortest plan's input cut after each of its bytes but the last.
fn shortest_cut() -> Vec<Vec<u8>> {
    let whole = input(&shortest());
    (0..whole.len())
        .map(|length| refused(whole[..length].to_vec(), 1, 0))
        .collect()
}

/// Plans of several sizes cut at each kind of place and inside the word there, and with more behind them.
fn cut_and_lengthened(random: &mut Random) -> Vec<Vec<u8>> {
    let plans = [example(), admitted(random, 3, 5), largest(random)];
    let mut cases = Vec::new();
    for (i, plan) in plans.iter().enumerate() {
        let whole = good(plan);
        for (j, words) in cuts(plan).into_iter().enumerate() {
            let mut length = 4 * words + (i + j) % 4;
            // a byte less than the whole rather than a word and some bytes
            if 4 * (words + 1) == whole.len() {
                length = whole.len() - 1;
                cases.push(refused(whole[..4 * words].to_vec(), 1, 0));
            }
            cases.push(refused(whole[..length].to_vec(), 1, 0));
        }
        for more in trailers(plan) {
            cases.push(refused([&whole[..], &more].concat(), 1, 0));
        }
    }
    cases
}

/// Other numbers in place of the counts, and lengths that fit only modulo 2^32.
fn miscounted() -> Vec<Vec<u8>> {
    let mut cases = Vec::new();
    let plan = example();
    let p = places(&plan);
    for place in [DOMAIN_COUNT, p.vcpu_count, p.task_count] {
        for count in wrong_counts(words(&plan)[place]) {
            let mut words = words(&plan);
            words[place] = count;
            cases.push(refused(bytes(&words), 1, 0));
        }
    }
    // the product with the 20 words, or the 80 bytes, of a task row is 16 and some times 2^32
    for (count, length) in [(0x3333_3334, 16), (0x0CCC_CCCD, 4)] {
        let mut words = words(&plan);
        words[p.task_count] = count;
        words.truncate(p.tasks + length);
        cases.push(refused(bytes(&words), 1, 0));
    }
    // with so many domains the reload would stand where they are counted
    let mut backwards = words(&plan);
    backwards[DOMAIN_COUNT] = u32::MAX;
    backwards.drain(GRANTS..p.vcpu_count);
    cases.push(refused(bytes(&backwards), 1, 0));
    // so many VCPUs would end four words before they begin
    let mut backwards = words(&plan);
    backwards[p.vcpu_count] = (1 << 30) - 1;
    backwards[p.vcpus - VCPU_WORDS] = 2;
    backwards.drain(p.vcpus..p.vcpus + 2 * VCPU_WORDS);
    cases.push(refused(bytes(&backwards), 1, 0));
    cases
}

/// A plan's words with that many domains and rows: the last of each is repeated as often as it takes.
fn sized(plan: &Plan, domains: usize, vcpus: usize, tasks: usize) -> Vec<u32> {
    let grants = &plan.board.grants[..plan.board.domains as usize];
    let mut words = vec![plan.board.colours, plan.board.frames];
    for (list, row, count) in [
        (grants, 1, domains),
        (&plan.vcpus, VCPU_WORDS, vcpus),
        (&plan.tasks, TASK_WORDS, tasks),
    ] {
        if row == VCPU_WORDS {
            words.push(plan.reload);
        }
        words.push(count as u32);
        let last = list[list.len() - row..].iter().cycle();
        words.extend(list.iter().chain(last).take(count * row));
    }
    words
}

/// Counts above their limits in inputs that are as long as they say, and counts at the limits beside them.
fn over_the_limits() -> Vec<Vec<u8>> {
    let mut cases = Vec::new();
    for (domains, vcpus, tasks) in [
        (9, 1, 2),
        (9, 16, 32),
        (10, 1, 1),
        (1, 17, 2),
        (8, 17, 32),
        (1, 18, 1),
        (1, 1, 33),
        (8, 16, 33),
        (1, 16, 34),
        (9, 17, 33),
        (16, 0, 0),
        (0, 17, 0),
        (0, 0, 33),
    ] {
        let words = sized(&example(), domains, vcpus, tasks);
        cases.push(refused(bytes(&words), 1, 0));
    }
    // N, F or L is at fault too, but 1 comes before all
    for (place, word, domains, vcpus, tasks) in [
        (0, 3, 9, 1, 2),
        (1, 0, 1, 17, 2),
        (GRANTS + 1, RELOAD + 1, 1, 1, 33),
    ] {
        let mut words = sized(&example(), domains, vcpus, tasks);
        words[place] = word;
        cases.push(refused(bytes(&words), 1, 0));
    }
    let at_limit = sized(&example(), 8, 16, 32);
    assert_eq!(4 * at_limit.len(), MOST_BYTES);
    cases.push(refused(bytes(&at_limit), 6, 0));
    cases.push(refused(bytes(&sized(&example(), 1, 16, 32)), 21, 1));
    cases.push(refused(bytes(&sized(&example(), 1, 1, 32)), 22, 3));
    cases
}

/// Counts of 0: of domains 4, of VCPUs 15, of tasks 16, after all that is tested before.
fn no_rows() -> Vec<Vec<u8>> {
    let mut cases = Vec::new();
    let plan = example();
    for (domains, vcpus, tasks, number) in [
        (0, 1, 2, 4),
        (0, 0, 2, 4),
        (0, 0, 0, 4),
        (1, 0, 2, 15),
        (1, 0, 0, 15),
        (1, 1, 0, 16),
    ] {
        let words = sized(&plan, domains, vcpus, tasks);
        cases.push(refused(bytes(&words), number, 0));
        // N, and then F, is at fault too
        for (place, before) in [(1, 3), (0, 2)] {
            let mut words = words.clone();
            words[place] = 0;
            cases.push(refused(bytes(&words), before, 0));
        }
    }
    cases.push(refused(vec![0; 24], 2, 0));
    cases.push(refused(vec![0; 28], 1, 0));
    cases
}

/// Words that would pass if only their low 8 or 16 bits were read; and numbers of more than 16 bits that
/// are right.
fn wide_words() -> Vec<Vec<u8>> {
    let plan = example();
    let p = places(&plan);
    let second = p.tasks + TASK_WORDS;
    let first_cost = second + COSTS;
    let changed = |place: usize, word: u32| {
        let mut words = words(&plan);
        words[place] = word;
        bytes(&words)
    };
    let mut cases = Vec::new();
    for (place, number, row) in [
        (0, 2, 0),
        (1, 3, 0),
        (DOMAIN_COUNT, 1, 0),
        (GRANTS, 5, 0),
        (p.reload, 15, 0),
        (p.vcpu_count, 1, 0),
        (p.vcpus, 17, 0),
        (p.vcpus + 1, 17, 0),
        (p.vcpus + VCPU_BUDGET, 17, 0),
        (p.task_count, 1, 0),
        (second, 18, 1),
        (second + DEADLINE, 18, 1),
        (second + COLOUR_SET, 18, 1),
        (first_cost + 1, 18, 1),
        (first_cost + 15, 18, 1),
    ] {
        let word = words(&plan)[place];
        for bit in [16, 31] {
            cases.push(refused(changed(place, word + (1 << bit)), number, row));
        }
    }
    for (place, word, number) in [
        (0, 256 + 16, 2),
        (1, 65_600, 3),
        (1, 4097, 3),
        (GRANTS, 0x1_0001, 5),
        (GRANTS, 0x1_0000, 5),
        (p.reload, 65_541, 15),
        (p.reload, RELOAD + 1, 15),
        (p.vcpus, 256, 17),
        (p.vcpus + VCPU_PERIOD, (1 << 24) + 10_000, 17),
        (p.vcpus + VCPU_PERIOD, LONGEST + 1, 17),
        (p.tasks + PERIOD, (1 << 24) + 4000, 18),
        (p.tasks + COSTS, (1 << 24) + 1000, 18),
    ] {
        cases.push(refused(changed(place, word), number, 0));
    }
    let mut long = example();
    vcpu_row(&mut long, 0)[VCPU_PERIOD..].fill(65_536 + 10_000);
    task_row(&mut long, 0)[COSTS..COSTS + 2].copy_from_slice(&[65_536 + 1000, 1000]);
    task_row(&mut long, 1)[PERIOD] = 65_536 + 1;
    cases.push(good(&long));
    cases
}

/// Refusals 5, 6 and 17 to 22 with every domain or row that they can name.
fn spoilt_rows(random: &mut Random) -> Vec<Vec<u8>> {
    let mut cases = Vec::new();
    for (number, rows) in ROWS {
        for row in rows {
            cases.push(refused(spoilt(random, number, row), number, row));
        }
    }
    cases
}

/// An input that is at fault at that number and row, made from an admitted plan.
fn spoilt(random: &mut Random, number: u32, row: u32) -> Vec<u8> {
    let here = row as usize;
    if number < 7 {
        let mut plan = largest_board(random);
        spoil(random, &mut plan.board, number, row);
        return input(&plan);
    }
    loop {
        let few = 1 + random.below(4) as usize;
        let (vcpus, tasks) = match number {
            17 | 21 => (here + 1, few),
            20 => (2 * few, here + 2),
            _ => (2 * few, here + 1),
        };
        let mut plan = admitted(random, vcpus, tasks);
        if spoil_row(random, &mut plan, number, here) {
            return input(&plan);
        }
    }
}

/// Eight domains, and a task.
fn largest_board(random: &mut Random) -> Plan {
    let mut plan = lone_vcpu(1, 100, [10, 10], &[[10, 10, 1, 5]]);
    plan.board = largest(random).board;
    task_row(&mut plan, 0)[COLOUR_SET] = plan.board.grants[0];
    good(&plan);
    plan
}

/// Two domains of eight colours, two VCPUs of the first with two tasks each, on one core.
fn two_of_each() -> Plan {
    let rows = [1, 2, 4, 8].map(|set| [20, 20, set, 2]);
    let mut plan = lone_vcpu(0xFF, 100, [10, 5], &rows);
    plan.reload = 0;
    plan.board.domains = 2;
    plan.board.grants[1] = 0xFF00;
    plan.vcpus.extend([0, 0, 10, 5]);
    for row in [2, 3] {
        task_row(&mut plan, row)[0] = 1;
    }
    plan
}

/// Puts the fault into that plan, and gives the row that its refusal names.
fn put_fault(plan: &mut Plan, number: u32) -> u32 {
    match number {
        2 => plan.board.colours = 12,
        3 => plan.board.frames = 0,
        4 => plan.board.domains = 0,
        5 => plan.board.grants[1] = 0x1_FF00,
        6 => plan.board.grants[1] |= 0x80,
        15 => plan.reload = RELOAD + 1,
        16 => plan.tasks.clear(),
        17 => vcpu_row(plan, 1)[0] = 4,
        18 => task_row(plan, 2)[COSTS + 15] = 0,
        19 => task_row(plan, 3)[0] = 0,
        20 => task_row(plan, 1)[COLOUR_SET] |= 4,
        21 => vcpu_row(plan, 1)[VCPU_BUDGET] = 6,
        _ => task_row(plan, 3)[COSTS..].fill(21),
    }
    match number {
        5 | 17 | 20 | 21 => 1,
        18 => 2,
        19 | 22 => 3,
        _ => 0,
    }
}

/// Each fault alone, each two at once, and all from each on: the lowest number wins, and 1 before all.
fn two_faults() -> Vec<Vec<u8>> {
    let numbers: Vec<u32> = (2..=6).chain(15..=22).collect();
    let mut cases = vec![good(&two_of_each())];
    for (place, first) in numbers.iter().enumerate() {
        let behind = &numbers[place + 1..];
        let mut others: Vec<Vec<u32>> = behind.iter().map(|other| vec![*other]).collect();
        others.extend([vec![], behind.to_vec()]);
        for others in others {
            let mut plan = two_of_each();
            for number in others.iter().rev() {
                put_fault(&mut plan, *number);
            }
            let row = put_fault(&mut plan, *first);
            let input = input(&plan);
            if others.is_empty() {
                let more = [&input[..], &[0]].concat();
                cases.push(refused(more, 1, 0));
                cases.push(refused(input[..input.len() - 1].to_vec(), 1, 0));
            }
            cases.push(refused(input, *first, row));
        }
    }
    cases
}

/// Inputs longer than any plan's, some of them with a whole plan in front.
fn long_inputs(random: &mut Random) -> Vec<Vec<u8>> {
    let longest = good(&largest(random));
    let short = good(&example());
    let mut cases = Vec::new();
    for (start, length) in [
        (&longest, MOST_BYTES + 1),
        (&longest, MOST_BYTES + 2),
        (&longest, MOST_BYTES + 3),
        (&longest, MOST_BYTES + 4),
        (&longest, 4000),
        (&longest, 4096),
        (&longest, 4097),
        (&longest, 65_536 + MOST_BYTES),
        (&short, MOST_BYTES),
        (&short, MOST_BYTES + 1),
        (&short, MOST_BYTES + 4),
        (&short, 4096),
        (&short, 8192),
        (&short, 65_536),
        (&short, 65_536 + short.len()),
        (&Vec::new(), 5000),
    ] {
        let mut input = start.clone();
        input.resize(length, 0);
        cases.push(refused(input, 1, 0));
    }
    // bytes with the high bit set make each count too large
    for length in [1, 2, 3, 4, 24, 100, MOST_BYTES, MOST_BYTES + 1] {
        let input = (0..length).map(|_| 128 | random.word() as u8).collect();
        cases.push(refused(input, 1, 0));
    }
    cases
}

#[cfg(test)]
mod tests {
    use super::*;

    /// The report finds every refusal and row that can occur, and the input stays small.
    #[test]
    fn every_refusal_occurs() {
        let set = set(crate::SEED);
        assert!(set.report());
        assert!(set.stdin.len() < 1_000_000);
    }

    /// The file holds as many cases as its first word says, each as long as the word in front of it, and
    /// the outputs of all follow one another.
    #[test]
    fn the_file_is_read_back() {
        let set = set(crate::SEED);
        let (count, mut rest) = set.stdin.split_first_chunk().unwrap();
        let mut outputs = String::new();
        for _ in 0..u32::from_le_bytes(*count) {
            let (length, behind) = rest.split_first_chunk().unwrap();
            let (case, behind) = behind.split_at(u32::from_le_bytes(*length) as usize);
            outputs += &judge(case).to_string();
            rest = behind;
        }
        assert!(rest.is_empty());
        assert_eq!(outputs.as_bytes(), set.stdout);
    }
}
