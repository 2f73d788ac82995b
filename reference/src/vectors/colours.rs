//! Vectors of the crates `refusal` and `colours`. A case is five little-endian 32-bit words: the
//! operation, then its numbers (64-bit ones low word first) and zeros. Before the cases stand five
//! words with their count. The program writes one line for each case.

use super::Set;
use crate::model::cache::{bleach, cache_colours, colours, drop_bits, is_count, layout};
use crate::model::reply::{names, Names, Reply};
use crate::random::Random;

const CACHE: u32 = 1;
const LAYOUT: u32 = 2;
const BLEACH: u32 = 3;
const DROP: u32 = 4;
const ROW_NAMES: u32 = 5;

const COUNTS: [u32; 5] = [1, 2, 4, 8, 16];
const OTHER_COUNTS: [u32; 12] = [0, 3, 5, 7, 9, 15, 17, 31, 32, 33, 1 << 16, u32::MAX];

pub fn set(seed: u64) -> Set {
    let mut set = Set::new("vectors_colours");
    set.want("cache", &[2]);
    set.want("layout", &[2, 9, 10]);
    set.want("bleach", &[2, 9, 10, 11]);
    let mut random = Random::new(seed);
    examples(&mut set);
    caches(&mut set, &mut random);
    layouts(&mut set, &mut random);
    bleaches(&mut set, &mut random);
    drops(&mut set, &mut random);
    row_names(&mut set);
    let cases = std::mem::take(&mut set.stdin);
    let count = set.cases;
    words(&mut set, [count, 0, 0, 0, 0]);
    set.stdin.extend(cases);
    set
}

fn words(set: &mut Set, words: [u32; 5]) {
    set.stdin
        .extend(words.iter().flat_map(|word| word.to_le_bytes()));
}

fn add_cache(set: &mut Set, bytes: u64, ways: u64) {
    let low = |x: u64| x as u32;
    let high = |x: u64| (x >> 32) as u32;
    words(set, [CACHE, low(bytes), high(bytes), low(ways), high(ways)]);
    set.reply("cache", cache_colours(bytes, ways));
}

fn add_layout(set: &mut Set, n: u32, colour_set: u32, index: u32) {
    words(set, [LAYOUT, n, colour_set, index, 0]);
    set.reply("layout", layout(n, colour_set, index));
}

fn add_drop(set: &mut Set, bits: u32, kept: u32, page: u32) {
    words(set, [DROP, bits, kept, page, 0]);
    set.reply("drop", Reply::Answer(drop_bits(bits, kept, page)));
}

fn add_bleach(set: &mut Set, n: u32, colour_set: u32, page: u32) {
    words(set, [BLEACH, n, colour_set, page, 0]);
    set.reply("bleach", bleach(n, colour_set, page));
}

/// The worked examples of documents 01 and 004, with the replies that are printed there.
fn examples(set: &mut Set) {
    for (bytes, ways, reply) in [
        (1_048_576, 16, Reply::Answer(16)),
        (2_097_152, 16, Reply::refused(2)),
    ] {
        assert_eq!(cache_colours(bytes, ways), reply);
        add_cache(set, bytes, ways);
    }
    for (colour_set, index, page) in [
        (0x00F0, 6, 22),
        (0x0005, 3, 18),
        (0x000C, 0, 0x02),
        (0x000C, 1, 0x03),
        (0x000C, 2, 0x12),
        (0x000C, 3, 0x13),
        (0x000C, 4, 0x22),
        (0x0F00, 0, 0x08),
        (0x0F00, 4, 0x18),
        (0x0F00, 11, 0x2B),
        (0x8000, 0x5_FFFF, 0x5F_FFFF),
    ] {
        assert_eq!(layout(16, colour_set, index), Reply::Answer(page));
        add_layout(set, 16, colour_set, index);
        assert_eq!(bleach(16, colour_set, page), Reply::Answer(index));
        add_bleach(set, 16, colour_set, page);
    }
    assert_eq!(bleach(16, 0x0005, 17), Reply::refused(11));
    add_bleach(set, 16, 0x0005, 17);
    assert_eq!(bleach(16, 0x0F00, 0x29), Reply::Answer(0x09));
    add_bleach(set, 16, 0x0F00, 0x29);
    for (bits, kept, page, dropped) in [(4, 2, 0x29, 0x09), (4, 0, 0x5F_FFFF, 0x5_FFFF)] {
        assert_eq!(drop_bits(bits, kept, page), dropped);
        add_drop(set, bits, kept, page);
    }
}

/// Sizes that divide exactly, for every N and the counts beside them, and sizes a little off; ways whose
/// product with 4,096 leaves 32 and 64 bits; and any sizes.
fn caches(set: &mut Set, random: &mut Random) {
    let wraps_32 = 1 << 20;
    let wraps_64 = 1 << 52;
    let mut all_ways = vec![0, 1, 2, 3, 4, 7, 8, 11, 12, 16, 20, 24];
    for edge in [
        wraps_32,
        1 << 32,
        1 << 40,
        1 << 48,
        wraps_64,
        1 << 60,
        1 << 63,
    ] {
        all_ways.extend([edge - 1, edge, edge + 1]);
    }
    all_ways.push(u64::MAX);
    for ways in all_ways {
        for n in [0u64, 1, 2, 3, 4, 8, 12, 15, 16, 17, 24, 32, 64] {
            // wrapped on purpose where it does not fit: such a size must not be taken for N colours
            let bytes = n.wrapping_mul(ways).wrapping_mul(4096);
            add_cache(set, bytes, ways);
            if n == 1 || n == 16 {
                for off in [1, 64, 2048, 4096] {
                    add_cache(set, bytes.wrapping_add(off), ways);
                    add_cache(set, bytes.wrapping_sub(off), ways);
                }
            }
        }
    }
    for _ in 0..300 {
        let ways = random.below(64);
        let n = random.below(34);
        add_cache(set, n * ways * 4096, ways);
        add_cache(set, random.any_size(), random.any_size());
    }
}

/// The edge sets of N colours, and some between: empty, each end, all, one bit too high, gaps.
fn sets(n: u32, random: &mut Random) -> Vec<u32> {
    let full = if is_count(n.into()) {
        (1u32 << n) - 1
    } else {
        0xFFFF
    };
    let top = full ^ full >> 1;
    let mut sets = vec![
        0,
        1,
        top,
        full,
        0x5555 & full,
        0xAAAA & full,
        full >> 1,
        full & !1,
    ];
    sets.extend([
        full + 1,
        full + 1 + top,
        1 << 16,
        0x8000_0000,
        0x8000_0001,
        u32::MAX,
    ]);
    for _ in 0..6 {
        sets.push(random.word() & full);
    }
    sets
}

fn layouts(set: &mut Set, random: &mut Random) {
    for n in COUNTS {
        for colour_set in sets(n, random) {
            let size = colours(colour_set).len() as u32;
            let last = (1 << 24) - 1;
            for index in [
                0,
                1,
                size.saturating_sub(1),
                size,
                size + 1,
                2 * size,
                last - size,
                last - 1,
                last,
            ] {
                add_layout(set, n, colour_set, index);
            }
            for index in [last + 1, last + 2, 1 << 28, u32::MAX] {
                add_layout(set, n, colour_set, index);
            }
            for _ in 0..3 {
                add_layout(set, n, colour_set, random.word() >> 8);
            }
            add_layout(set, n, colour_set, random.word());
        }
    }
    for n in OTHER_COUNTS {
        for (colour_set, index) in [(1, 0), (0, 0), (1, u32::MAX), (0x5, 3), (u32::MAX, 1 << 24)] {
            add_layout(set, n, colour_set, index);
        }
    }
}

fn bleaches(set: &mut Set, random: &mut Random) {
    for n in COUNTS {
        for colour_set in sets(n, random) {
            let last = (1 << 28) - 1;
            for page in [0, 1, n - 1, n, n + 1, 2 * n - 1, last - n, last - 1, last] {
                add_bleach(set, n, colour_set, page);
            }
            for page in [last + 1, last + 2, 1 << 31, u32::MAX] {
                add_bleach(set, n, colour_set, page);
            }
            add_bleach(set, n, colour_set, random.word());
            for colour in colours(colour_set) {
                add_bleach(
                    set,
                    n,
                    colour_set,
                    random.word() >> 4 & !(n - 1) | colour & (n - 1),
                );
            }
            // what layout gives bleaches back
            for index in [0, 5, (1 << 24) - 1, random.word() >> 8] {
                if let Reply::Answer(page) = layout(n, colour_set, index) {
                    assert_eq!(bleach(n, colour_set, page), Reply::Answer(index));
                    add_bleach(set, n, colour_set, page);
                }
            }
        }
    }
    for n in OTHER_COUNTS {
        for (colour_set, page) in [(1, 0), (0, 0), (1, u32::MAX), (0x5, 3), (u32::MAX, 1 << 28)] {
            add_bleach(set, n, colour_set, page);
        }
    }
}

fn drops(set: &mut Set, random: &mut Random) {
    let sizes = [0, 1, 2, 3, 4, 5, 16, 27, 28, 31, 32, 33, u32::MAX];
    for bits in sizes {
        for kept in sizes {
            for page in [
                0,
                0x29,
                0x5F_FFFF,
                u32::MAX,
                random.word(),
                random.word() >> 4,
            ] {
                add_drop(set, bits, kept, page);
            }
        }
    }
}

fn row_names(set: &mut Set) {
    for number in (0..40).chain([255, 256, 1 << 16, u32::MAX]) {
        words(set, [ROW_NAMES, number, 0, 0, 0]);
        let text = match names(number) {
            Names::Domain => "domain",
            Names::PlanRow => "plan row",
            Names::Nothing => "nothing",
        };
        set.reply("row names", Reply::Answer(text));
    }
}
