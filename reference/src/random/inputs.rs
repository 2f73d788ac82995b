//! Random inputs of the program `admit`, whole and broken, for the comparison with a compiled one.
//! The faults are those of document 01, "Refusals in the order tested".

use crate::model::frames::DOMAINS;
use crate::model::plans::{Plan, LONGEST, RELOAD, TASKS, TASK_WORDS, VCPUS, VCPU_WORDS};
use crate::random::boards::spoil;
use crate::random::encoding::{
    bytes, cuts, input, places, trailers, words, wrong_counts, DOMAIN_COUNT, MOST_BYTES,
};
use crate::random::plans::{
    admitted, largest, spoil_row, stretched, COSTS, DEADLINE, PERIOD, VCPU_BUDGET, VCPU_PERIOD,
};
use crate::random::Random;

/// Any input: of an admitted plan, of one with faults, or one that is no plan.
pub fn any_input(random: &mut Random) -> Vec<u8> {
    if random.below(12) == 0 {
        return rubbish(random);
    }
    let mut plan = any_plan(random);
    match random.below(20) {
        0..4 => input(&plan),
        4..8 => {
            spoil_plan(random, &mut plan);
            input(&plan)
        }
        8..11 => nudged(random, &plan),
        11..13 => widened(random, &plan),
        13 | 14 => miscounted(random, &plan),
        15 => crowded(random, &plan),
        16 | 17 => cut(random, &plan),
        18 => shifted(random, &plan),
        _ => lengthened(random, &plan),
    }
}

/// Inputs about as long as the longest may be: a plan of full size, admitted, without its last byte, whole, and
/// with a byte more, two or a word, which are zeros or not.
pub fn edges(random: &mut Random) -> Vec<Vec<u8>> {
    let whole = input(&largest(random));
    let mut inputs = vec![whole[..whole.len() - 1].to_vec(), whole.clone()];
    for byte in [0, 1, 255] {
        for more in [1, 2, 4] {
            let mut longer = whole.clone();
            longer.resize(whole.len() + more, byte);
            inputs.push(longer);
        }
    }
    inputs
}

/// An admitted plan, small as a rule, at times as large or with periods as long as they may be.
fn any_plan(random: &mut Random) -> Plan {
    let (vcpus, tasks) = match random.below(20) {
        0 => return largest(random),
        1 => return longest(random),
        2 => {
            let plan = admitted(random, 2, 3);
            return stretched(plan);
        }
        3 => (VCPUS as u64, TASKS as u64),
        4..8 => (VCPUS as u64, 9),
        _ => (3, 4),
    };
    let vcpus = 1 + random.below(vcpus) as usize;
    let tasks = 1 + random.below(tasks) as usize;
    admitted(random, vcpus, tasks)
}

/// Rows of one VCPU, all with the longest period; the last may be late.
fn longest(random: &mut Random) -> Plan {
    let mut plan = admitted(random, 1, 3);
    let any = 1 + random.below(LONGEST.into()) as u32;
    plan.vcpus[VCPU_PERIOD] = LONGEST;
    plan.vcpus[VCPU_BUDGET] = random.pick(&[LONGEST, LONGEST, LONGEST - 1, LONGEST / 2, any]);
    for row in plan.tasks.chunks_exact_mut(TASK_WORDS) {
        row[PERIOD] = LONGEST;
        row[DEADLINE] = LONGEST;
        row[COSTS..].fill(1 + random.below(400_000) as u32);
    }
    plan
}

/// Puts one fault into the plan, or several at once; each where the plan has a way to.
fn spoil_plan(random: &mut Random, plan: &mut Plan) {
    let mut numbers: Vec<u32> = (2..=6).chain(15..=22).collect();
    random.shuffle(&mut numbers);
    numbers.truncate(random.pick(&[1, 1, 1, 1, 2, 4]));
    // each is made before those tested ahead of it, which then see a plan that passes theirs
    numbers.sort();
    for number in numbers.into_iter().rev() {
        spoil_with(random, plan, number);
    }
}

fn spoil_with(random: &mut Random, plan: &mut Plan, number: u32) {
    let vcpus = plan.vcpus.len() / VCPU_WORDS;
    let tasks = plan.tasks.len() / TASK_WORDS;
    let domains = u64::from(plan.board.domains);
    match number {
        2 => plan.board.colours = random.pick(&[0, 3, 17, 32, (1 << 16) + 16, u32::MAX]),
        3 => plan.board.frames = random.pick(&[0, 4097, 65_600, 1 << 31, u32::MAX]),
        4 => plan.board.domains = 0,
        6 if domains < 2 => {}
        5 | 6 => {
            let rows = domains - u64::from(number == 6);
            let row = random.below(rows) as u32;
            spoil(random, &mut plan.board, number, row);
        }
        15 if random.below(3) == 0 => plan.vcpus.clear(),
        15 => plan.reload = random.pick(&[RELOAD + 1, 65_541, 1 << 31, u32::MAX]),
        16 => plan.tasks.clear(),
        _ => {
            let rows = match number {
                17 | 21 => vcpus,
                _ => tasks,
            };
            // not every row has a way to each fault
            for _ in 0..8 {
                let row = random.below(rows as u64) as usize;
                if spoil_row(random, plan, number, row) {
                    return;
                }
            }
        }
    }
}

/// A few words one more or one less.
fn nudged(random: &mut Random, plan: &Plan) -> Vec<u8> {
    let mut words = words(plan);
    for _ in 0..random.pick(&[1, 1, 2, 3]) {
        let place = random.below(words.len() as u64) as usize;
        words[place] = words[place].wrapping_add(random.pick(&[1, u32::MAX]));
    }
    bytes(&words)
}

/// A word with a high bit changed, or with another number in its place.
fn widened(random: &mut Random, plan: &Plan) -> Vec<u8> {
    let mut words = words(plan);
    let place = match random.below(3) {
        0 => random.below(places(plan).vcpus as u64 + 4),
        _ => random.below(words.len() as u64),
    };
    let any = random.any_size() as u32;
    let other = random.pick(&[0, 1, LONGEST, LONGEST + 1, 1 << 31, u32::MAX, any]);
    let bit = random.pick(&[8, 12, 16, 16, 20, 24, 28, 30, 31]);
    let word = &mut words[place as usize];
    *word = random.pick(&[*word ^ 1 << bit, *word ^ 1 << bit, other]);
    bytes(&words)
}

/// Another number in place of a count.
fn miscounted(random: &mut Random, plan: &Plan) -> Vec<u8> {
    let mut words = words(plan);
    let p = places(plan);
    let place = random.pick(&[DOMAIN_COUNT, p.vcpu_count, p.task_count]);
    words[place] = random.pick(&wrong_counts(words[place]));
    if random.below(4) == 0 {
        words.truncate(place + 1 + random.below(30) as usize);
    }
    bytes(&words)
}

/// A count above its limit, or at it, and the input as long as the count says.
fn crowded(random: &mut Random, plan: &Plan) -> Vec<u8> {
    let mut words = words(plan);
    let p = places(plan);
    let more = random.below(3) as usize;
    let (place, end, row, count) = random.pick(&[
        (DOMAIN_COUNT, p.reload, 1, DOMAINS + more),
        (p.vcpu_count, p.task_count, VCPU_WORDS, VCPUS + more),
        (p.task_count, p.end, TASK_WORDS, TASKS + more),
    ]);
    let missing = (count - words[place] as usize) * row;
    words[place] = count as u32;
    let last = words[end - row..end].to_vec();
    words.splice(end..end, last.into_iter().cycle().take(missing));
    bytes(&words)
}

/// Cut at a place that the counts give, or anywhere; perhaps inside a word.
fn cut(random: &mut Random, plan: &Plan) -> Vec<u8> {
    let mut bytes = input(plan);
    let any = random.below(bytes.len() as u64 / 4) as usize;
    let place = random.pick(&cuts(plan));
    let words = random.pick(&[any, place]);
    bytes.truncate(4 * words + random.below(4) as usize);
    bytes
}

/// A byte, a few bytes or a word lost or put in amid the others.
fn shifted(random: &mut Random, plan: &Plan) -> Vec<u8> {
    let mut bytes = input(plan);
    let place = random.below(bytes.len() as u64 - 3) as usize;
    let place = random.pick(&[place, place & !3]);
    let length = random.pick(&[1, 2, 3, 4, 4]);
    match random.below(2) {
        0 => {
            bytes.drain(place..place + length);
        }
        _ => {
            let some = random.next().to_le_bytes();
            bytes.splice(place..place, some[..length].iter().copied());
        }
    }
    bytes
}

/// More behind the plan's input, at times much more.
fn lengthened(random: &mut Random, plan: &Plan) -> Vec<u8> {
    let mut bytes = input(plan);
    if random.below(3) > 0 {
        let trailers = trailers(plan);
        let which = random.below(trailers.len() as u64) as usize;
        bytes.extend(&trailers[which]);
        return bytes;
    }
    let any = random.below(6000) as usize;
    let length = match random.below(24) {
        0 => random.pick(&[65_535, 65_536, 65_537, 65_536 + bytes.len(), 200_000]),
        1..6 => random.pick(&[MOST_BYTES + 1, MOST_BYTES + 4, 4000, 4095, 4096, 4097, 8192]),
        _ => bytes.len() + any,
    };
    let byte = random.pick(&[0, 0, 1, 10, 255]);
    bytes.resize(length.max(bytes.len() + 1), byte);
    bytes
}

/// Bytes of any kind, or words of any kind whose counts the length fits.
pub fn rubbish(random: &mut Random) -> Vec<u8> {
    let length = random.pick(&[4, 8, 40, 200, 3000]);
    let length = random.below(length) as usize;
    match random.below(4) {
        0 => (0..length).map(|_| random.word() as u8).collect(),
        1 => (0..length).map(|_| random.below(3) as u8).collect(),
        _ => counted_rubbish(random),
    }
}

fn counted_rubbish(random: &mut Random) -> Vec<u8> {
    let mut words = vec![random.pick(&[1, 2, 4, 8, 16, 16]), random.below(70) as u32];
    for (most, row) in [(DOMAINS, 1), (VCPUS, VCPU_WORDS), (TASKS, TASK_WORDS)] {
        if row == VCPU_WORDS {
            words.push(random.any_size() as u32);
        }
        let most = random.pick(&[1, 2, most as u64]);
        let count = random.below(most + 1) as usize;
        words.push(count as u32);
        for _ in 0..count * row {
            let bit = 1 << random.below(16);
            let small = random.below(4) as u32;
            words.push(random.pick(&[bit, small]));
        }
    }
    bytes(&words)
}

#[cfg(test)]
mod tests {
    use super::*;
    use crate::model::admit::{judge, Verdict};
    use std::collections::BTreeMap;

    /// The plan alone is admitted, and with a byte less or more it is refused.
    #[test]
    fn edges_about_the_longest_plan() {
        let inputs = edges(&mut Random::new(crate::SEED));
        for length in [2871, 2872, 2873, 2874] {
            let mut some = inputs.iter().filter(|input| input.len() == length);
            assert!(some.next().is_some(), "{length}");
        }
        for input in inputs {
            let verdict = judge(&input);
            match input.len() {
                MOST_BYTES => assert!(matches!(verdict, Verdict::Admitted { .. })),
                _ => assert_eq!(verdict, Verdict::Refused { number: 1, row: 0 }),
            }
        }
    }

    /// Admitted plans and every refusal that the program can give are among them.
    #[test]
    fn every_refusal_occurs() {
        let mut random = Random::new(crate::SEED);
        let mut seen = BTreeMap::new();
        for _ in 0..1500 {
            let number = match judge(&any_input(&mut random)) {
                Verdict::Admitted { .. } => 0,
                Verdict::Refused { number, .. } => number,
            };
            *seen.entry(number).or_insert(0) += 1;
        }
        println!("{seen:?}");
        for number in (0..=6).chain(15..=22) {
            assert!(seen.contains_key(&number), "{number}: {seen:?}");
        }
    }
}
