//! Whole inputs of the program `admit`, from sound plans and from damaged ones, cut short, too long, or
//! with counts that are wrong.

use interface::Raw;
use reference::model::admit::{judge, Verdict};
use reference::model::plans::{Plan, TASK_WORDS, VCPU_WORDS};
use reference::random::Random;

use crate::lent::Lent;
use crate::plans::{damage, sound};
use crate::tally::{unlike, Tally};

/// The words of the plan, with counts as its lists have rows.
fn words(plan: &Plan) -> Vec<u32> {
    let domains = plan.board.domains.min(8) as usize;
    let mut words = vec![plan.board.colours, plan.board.frames, plan.board.domains];
    words.extend(&plan.board.grants[..domains]);
    words.extend([plan.reload, (plan.vcpus.len() / VCPU_WORDS) as u32]);
    words.extend(&plan.vcpus);
    words.push((plan.tasks.len() / TASK_WORDS) as u32);
    words.extend(&plan.tasks);
    words
}

fn bytes(words: &[u32]) -> Vec<u8> {
    words.iter().flat_map(|word| word.to_le_bytes()).collect()
}

/// Another length, another byte, or another count near the front.
fn damage_bytes(random: &mut Random, input: &mut Vec<u8>) {
    let place = random.below(input.len() as u64 + 1) as usize;
    match random.below(5) {
        0 => input.truncate(place),
        1 => input.truncate(random.below(64) as usize),
        2 => input.extend(vec![0; 1 + random.below(24) as usize]),
        3 => {
            if let Some(byte) = input.get_mut(place) {
                *byte = random.next() as u8;
            }
        }
        _ => {
            let word = 4 * random.below(12) as usize;
            if let Some(bytes) = input.get_mut(word..word + 4) {
                let count = random.pick(&[0, 1, 8, 9, 16, 17, 32, 33, u32::MAX]);
                bytes.copy_from_slice(&count.to_le_bytes());
            }
        }
    }
}

fn compare(input: &[u8], tally: &mut Tally) {
    let before: Vec<u8> = (0..juzvanec::TEXT_BYTES).map(|i| i as u8 | 0x80).collect();
    let lent = Lent::new(input, 0x5A);
    let mut text = Lent::new(&before, 0xC3);
    let found = interface::admit(lent.list(), text.list_mut());
    let verdict = judge(input);
    let (number, row) = match verdict {
        Verdict::Refused { number, row } => (number, row),
        Verdict::Admitted { .. } => (0, 0),
    };
    let printed = verdict.to_string();
    let taken = match number {
        1 => 0,
        _ => input.len() as u32 / 4,
    };
    let values = [printed.len() as u32, taken];
    let model = Raw {
        number,
        row,
        values,
    };
    let mut expected = before;
    expected[..printed.len()].copy_from_slice(printed.as_bytes());
    let differences = [
        unlike("reply", found, model),
        text.difference("text", &expected),
        lent.difference("input", input),
    ];
    let differences = differences.into_iter().flatten();
    tally.count("admit", number, &input, differences);
}

/// A plan's input, and the same with faults in the plan or in the bytes.
pub fn family(random: &mut Random, tally: &mut Tally) {
    let plan = sound(random);
    let input = bytes(&words(&plan));
    compare(&input, tally);
    let mut damaged = plan.clone();
    damage(random, &mut damaged);
    compare(&bytes(&words(&damaged)), tally);
    for _ in 0..2 {
        let mut damaged = input.clone();
        damage_bytes(random, &mut damaged);
        compare(&damaged, tally);
    }
}
