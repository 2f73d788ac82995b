//! Cache sizes, layout and bleaching with random numbers, most of them near what is answered and the
//! rest rubbish.

use interface::Raw;
use reference::model::cache;
use reference::model::reply::Reply;
use reference::random::Random;

use crate::tally::{unlike, Tally};

fn expected(reply: Reply<u64>) -> Raw {
    match reply {
        Reply::Answer(value) => Raw {
            number: 0,
            row: 0,
            values: [value as u32, 0],
        },
        Reply::Refused { number, row } => Raw {
            number,
            row,
            values: [0; 2],
        },
    }
}

fn widen(reply: Reply<u32>) -> Reply<u64> {
    match reply {
        Reply::Answer(value) => Reply::Answer(value.into()),
        Reply::Refused { number, row } => Reply::Refused { number, row },
    }
}

/// Products that are N colours, just miss them, or are so only in 64 bits; and any sizes.
pub fn cache_sizes(random: &mut Random, tally: &mut Tally) {
    let ways = match random.below(6) {
        0 => random.any_size(),
        1 => random.pick(&[0, 1 << 20, 1 << 52, u64::MAX]),
        _ => 1 + random.below(64),
    };
    let n = random.pick(&[0, 1, 2, 3, 4, 6, 8, 12, 16, 16, 32]);
    let exact = ways.wrapping_mul(4096).wrapping_mul(n);
    let bytes = match random.below(6) {
        0 => random.any_size(),
        1 => exact.wrapping_add(random.pick(&[1, u64::MAX, 64, 4096])),
        _ => exact,
    };
    let model = expected(cache::cache_colours(bytes, ways));
    let found = interface::cache_colours(bytes, ways);
    let differences = unlike("reply", found, model);
    tally.count("cache sizes", model.number, &(bytes, ways), differences);
}

/// N, a set of its colours or one that is none, and a number up to near the limit.
fn any_numbers(random: &mut Random, limit: u32) -> (u32, u32, u32) {
    let n = match random.below(16) {
        0 => random.any_size() as u32,
        1 => random.pick(&[0, 3, 5, 12, 17, 32, 1 << 16, (1 << 16) + 4, u32::MAX]),
        _ => 1 << random.below(5),
    };
    let inside = random.word() & (1u64 << n.min(31)).wrapping_sub(1) as u32;
    let set = match random.below(10) {
        0 => random.word(),
        1 => inside | 1 << n.min(31),
        2 => random.pick(&[0, 1, 0xFFFF, 0x1_0000, 1 << 31, u32::MAX]),
        _ => inside,
    };
    let number = match random.below(8) {
        0 => random.word(),
        1 => limit.wrapping_add(random.pick(&[0, 1, 2, u32::MAX])),
        2 => random.below(64) as u32,
        _ => random.below(u64::from(limit) + 1) as u32,
    };
    (n, set, number)
}

pub fn layout(random: &mut Random, tally: &mut Tally) {
    let case = any_numbers(random, (1 << 24) - 1);
    let (n, set, index) = case;
    let model = expected(widen(cache::layout(n, set, index)));
    let found = interface::layout(n, set, index);
    tally.count("layout", model.number, &case, unlike("reply", found, model));
}

pub fn bleaching(random: &mut Random, tally: &mut Tally) {
    let case = any_numbers(random, (1 << 28) - 1);
    let (n, set, page) = case;
    let model = expected(widen(cache::bleach(n, set, page)));
    let found = interface::bleach(n, set, page);
    let differences = unlike("reply", found, model);
    tally.count("bleaching", model.number, &case, differences);
}
