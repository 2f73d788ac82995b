//! Random boards, frame tables and numbers for calls, shared by the vectors, the histories and the comparison
//! at scale. The terms are those of document 01, "Board and frame table".

use crate::model::cache::colours;
use crate::model::frames::{frames_held, word, Board, DOMAINS, FREE, PAGES, QUOTA, RESERVED};
use crate::random::Random;

/// A nonempty part of the set, unless it is empty.
pub fn part_of(random: &mut Random, set: u32) -> u32 {
    let part = random.word() & set;
    if part != 0 || set == 0 {
        return part;
    }
    1 << random.pick(&colours(set))
}

/// A board that passes 2 to 7, given at least as many colours as domains. Some colours may be
/// nobody's, and the sets of domains beyond the count hold anything. Quotas are those at first.
pub fn accepted(random: &mut Random, n: u32, frames: u32, domains: u32) -> Board {
    let mut order: Vec<u32> = (0..n).collect();
    random.shuffle(&mut order);
    let nobodys = random.below(3) == 0;
    let mut grants = [0; DOMAINS];
    for (place, colour) in order.into_iter().enumerate() {
        let domain = match place as u32 {
            first if first < domains => first,
            _ if nobodys && random.below(2) == 0 => continue,
            _ => random.below(domains.into()) as u32,
        };
        grants[domain as usize] |= 1 << colour;
    }
    let mut active = grants;
    for set in &mut active {
        if random.below(2) == 0 {
            *set = part_of(random, *set);
        }
    }
    for domain in domains as usize..DOMAINS {
        let sets = [0, 1, 0xFFFF, u32::MAX, grants[0], random.word()];
        grants[domain] = random.pick(&sets);
        active[domain] = random.pick(&sets);
    }
    Board {
        colours: n,
        frames,
        domains,
        grants,
        active,
        quotas: [QUOTA; DOMAINS],
    }
}

/// Makes the board fail at a number and row of 5 to 7, without a failure that is tested before.
pub fn spoil(random: &mut Random, board: &mut Board, number: u32, row: u32) {
    let n = board.colours;
    let here = row as usize;
    match number {
        5 => {
            let beyond = 1 << (u64::from(n) + random.below(32 - u64::from(n)));
            board.grants[here] = random.pick(&[0, beyond, board.grants[here] | beyond]);
        }
        6 => {
            let later = row + 1 + random.below((board.domains - 1 - row).into()) as u32;
            board.grants[later as usize] |= part_of(random, board.grants[here]);
        }
        _ => {
            let outside = 1 << random.pick(&colours(!board.grants[here]));
            board.active[here] = random.pick(&[0, outside, board.active[here] | outside]);
        }
    }
}

/// Quotas of a board that 26 refuses: beside the limits, with low bits that are a quota, and near 2^32.
pub const NO_QUOTAS: [u32; 12] = [
    0,
    QUOTA + 1,
    QUOTA + 2,
    2 * QUOTA,
    1 << 16,
    (1 << 16) + 1,
    (1 << 16) + QUOTA,
    (1 << 24) + 5,
    1 << 31,
    (1 << 31) + 9,
    u32::MAX - QUOTA + 1,
    u32::MAX,
];

/// A quota that 26 accepts, as a rule about as many frames as the domain holds.
pub fn any_quota(random: &mut Random, held: usize) -> u32 {
    let held = held as u32;
    let few = 1 + random.below(6) as u32;
    let any = 1 + random.below(QUOTA.into()) as u32;
    let below = [held.saturating_sub(1), held / 2];
    let near = [held, held, held + 1, held + 2, below[0], below[1]];
    let quota = match random.below(3) {
        0 => random.pick(&[1, few, few, QUOTA, any]),
        _ => random.pick(&near),
    };
    quota.clamp(1, QUOTA)
}

/// Gives the board quotas that 26 accepts, with anything in the fields of domains beyond the count.
pub fn limit(random: &mut Random, board: &mut Board, table: &[u16]) {
    for domain in 0..DOMAINS {
        let held = frames_held(table, domain as u32);
        board.quotas[domain] = match (domain as u32) < board.domains {
            true => any_quota(random, held),
            false => {
                let any = [random.pick(&NO_QUOTAS), held as u32, QUOTA, random.word()];
                random.pick(&any)
            }
        };
    }
}

/// A quota to ask for: beside the frames held, F and the old one as a rule, at times one that is none.
pub fn asked_quota(random: &mut Random, board: &Board, held: usize, domain: u32) -> u32 {
    let held = held as u32;
    let old = *board.quotas.get(domain as usize).unwrap_or(&QUOTA);
    let low_bits = (1 << 16) + held + 1;
    let any = 1 + random.below(QUOTA.into()) as u32;
    match random.below(12) {
        0 => random.pick(&NO_QUOTAS),
        1 => random.pick(&[0, QUOTA + 1, u32::MAX, low_bits]),
        2 => random.pick(&[1, QUOTA, any]),
        3 => random.pick(&[board.frames, board.frames.wrapping_add(1)]),
        4 => old,
        5 | 6 => held.saturating_sub(1),
        7 | 8 => held,
        _ => held + random.below(4) as u32,
    }
}

/// An empty table: free frames, and here and there a reserved one.
pub fn empty_table(random: &mut Random, frames: u32) -> Vec<u16> {
    let percent = random.pick(&[0, 10, 30]);
    (0..frames)
        .map(|_| match random.below(100) < percent {
            true => RESERVED,
            false => FREE,
        })
        .collect()
}

/// A domain below the count as a rule, at times one of the numbers that are none.
pub fn any_domain(random: &mut Random, domains: u32) -> u32 {
    if random.below(12) > 0 {
        return random.below(domains.clamp(1, 8).into()) as u32;
    }
    let edges = [
        domains,
        domains.wrapping_add(1),
        7,
        8,
        16,
        256,
        1 << 16,
        1 << 20,
        1 << 31,
        u32::MAX,
    ];
    random.pick(&edges)
}

/// One of the given pages as a rule, at times one near a limit or a number that is no page.
pub fn any_page(random: &mut Random, pages: &[u32]) -> u32 {
    if random.below(10) > 0 {
        return random.pick(pages);
    }
    let near = random.pick(pages);
    let edges = [
        0,
        1,
        4094,
        4095,
        4096,
        4097,
        near.wrapping_add(4096),
        near.wrapping_add(8192),
        65_535,
        65_536,
        near.wrapping_add(1 << 16),
        near.wrapping_add(1 << 31),
        u32::MAX,
        random.word(),
    ];
    random.pick(&edges)
}

/// A set to recolour to: a part of the grant as a rule, at times one that is refused.
pub fn any_set(random: &mut Random, grant: u32) -> u32 {
    let part = part_of(random, grant);
    match random.below(16) {
        0 => 0,
        1 => part | 1 << random.below(32),
        2 => random.word() & 0xFFFF,
        3 => random.pick(&[u32::MAX, 1 << 16, 1 << 31, part | 1 << 31, part << 16]),
        4 | 5 => grant,
        _ => part,
    }
}

/// A word that is seldom free: of the given pages, so that some stand twice and in frames of any colour; of
/// domains at or beyond the count; at the edges between two domains; and of nobody.
pub fn any_word(random: &mut Random, domains: u32, pages: &[u32]) -> u16 {
    let page = random.pick(pages);
    let edge = PAGES * random.below(9) as u32;
    let any = match random.below(14) {
        0..=7 => word(random.below(domains.clamp(1, 8).into()) as u32, page),
        8 => word(random.below(8) as u32, page),
        9 => u64::from(edge) + random.below(2),
        10 => random.pick(&[32_768, 32_769, 65_534]),
        11 => random.below(65_536),
        _ => RESERVED.into(),
    };
    any as u16
}

/// A table in which each colour has a share of free frames and of its domain's words, and else any words.
pub fn crowded_table(random: &mut Random, board: &Board, pages: &[u32]) -> Vec<u16> {
    // percent of free frames, and of the domain's own
    let shares = [
        (0, 0),
        (0, 100),
        (5, 90),
        (20, 70),
        (40, 50),
        (50, 20),
        (80, 15),
        (95, 0),
        (100, 0),
    ];
    let of_colour: Vec<((u64, u64), u32)> = (0..board.colours)
        .map(|colour| {
            let owner = (0..board.domains).find(|d| board.grants[*d as usize] >> colour & 1 == 1);
            (random.pick(&shares), owner.unwrap_or(0))
        })
        .collect();
    (0..board.frames)
        .map(|frame| {
            let ((free, own), domain) = of_colour[(frame % board.colours) as usize];
            match random.below(100) {
                share if share < free => FREE,
                share if share < free + own => word(domain, random.pick(pages)) as u16,
                _ => any_word(random, board.domains, pages),
            }
        })
        .collect()
}
