//! Calls for which it matters how many frames the domain holds in all, and what the board's quotas are: document
//! 02, No. 6. On chosen tables the quota, or the one that is asked for, is just what is held, one less or one more;
//! on long ones more is held than eight bits count. Random scripts set quotas, fault, release and recolour in turn.

use reference::model::frames::{frames_held, no_quota, word, Answer, Board, Call, State};
use reference::model::frames::{DOMAINS, FREE, PAGES, QUOTA, RESERVED};
use reference::model::reply::Reply;
use reference::random::boards::{accepted, any_word, asked_quota, limit, part_of, NO_QUOTAS};
use reference::random::Random;

use crate::frames::{any_call, any_frames, compare, recolour_to};
use crate::tally::Tally;

/// Any number for each domain, quotas or not.
pub fn any(random: &mut Random) -> [u32; DOMAINS] {
    std::array::from_fn(|_| match random.below(3) {
        0 => random.pick(&NO_QUOTAS),
        1 => QUOTA,
        _ => random.any_size() as u32,
    })
}

/// A call that asks for a quota.
pub fn any_set_quota(random: &mut Random, state: &State, domain: u32) -> Call {
    let held = frames_held(&state.table, domain);
    let quota = asked_quota(random, &state.board, held, domain);
    Call::SetQuota { domain, quota }
}

/// What the replies show of quotas: each occurs in a comparison that has any worth.
#[derive(Default)]
pub struct Seen {
    /// Faults: of mapped pages with as many frames held as the quota or more; refused 28 with more held, and where
    /// nothing is free, too.
    pub old: u64,
    pub above: u64,
    pub without_frame: u64,
    /// Recolourings with more frames held than the quota, which moved some.
    pub moved: u64,
    /// Quotas set to just what is held and to more than there are frames; refused 27 at one less than is held.
    pub just_held: u64,
    pub over_frames: u64,
    pub one_less: u64,
    /// Plans that are admitted on a board with which every other call is refused 26.
    pub admitted: u64,
}

impl Seen {
    /// All counts, with what each is of.
    pub fn counts(&self) -> [(&'static str, u64); 8] {
        [
            ("old frames at the quota or above", self.old),
            ("28 above the quota", self.above),
            ("28 where nothing is free", self.without_frame),
            ("moves above the quota", self.moved),
            ("quotas of just what is held", self.just_held),
            ("quotas over the frames", self.over_frames),
            ("27 at one less", self.one_less),
            ("plans admitted whatever the quotas", self.admitted),
        ]
    }
}

/// Counts the reply to a call.
pub fn count(before: &State, call: &Call, reply: Reply<Answer>, tally: &mut Tally) {
    let State { board, table } = before;
    let seen = &mut tally.quotas;
    let held = || frames_held(table, call.domain()) as u32;
    let quota = || board.quotas[call.domain() as usize];
    let is_free = |frame: usize| {
        let active = board.active[call.domain() as usize];
        table[frame] == FREE && active >> (frame as u32 % board.colours) & 1 == 1
    };
    match (call, reply) {
        (Call::Fault { .. }, Reply::Answer(Answer::Old(_))) => {
            seen.old += u64::from(held() >= quota());
        }
        (Call::Fault { .. }, Reply::Refused { number: 28, .. }) => {
            seen.above += u64::from(held() > quota());
            seen.without_frame += u64::from(!(0..table.len()).any(is_free));
        }
        (Call::Recolour { .. }, Reply::Answer(Answer::Moved(1..))) => {
            seen.moved += u64::from(held() > quota());
        }
        (Call::SetQuota { .. }, Reply::Answer(Answer::Quota(set))) => {
            seen.just_held += u64::from(set == held());
            seen.over_frames += u64::from(set > board.frames);
        }
        (Call::SetQuota { quota, .. }, Reply::Refused { number: 27, .. }) => {
            seen.one_less += u64::from(*quota > 0 && held().checked_sub(1) == Some(*quota));
        }
        _ => {}
    }
}

/// Counts an admitted plan's board.
pub fn count_admitted(board: &Board, tally: &mut Tally) {
    let quotas = &board.quotas[..board.domains as usize];
    let is_spoilt = quotas.iter().any(|quota| no_quota(*quota));
    tally.quotas.admitted += u64::from(is_spoilt);
}

/// Domain 1 of three calls, so that there are words below and above its own; with one colour, the only domain.
/// Half of its colours are active, and beyond the count no quota stands.
fn board(colours: u32, frames: usize) -> (Board, u32) {
    let mut grants = [0; DOMAINS];
    let domains = match colours {
        1 => 1,
        _ => 3,
    };
    let all = (1u32 << colours) - 1;
    let caller = domains / 2;
    match colours {
        1 => grants[0] = 1,
        _ => {
            let own = all & !0x1 & !(1 << (colours - 1));
            grants[..3].copy_from_slice(&[0x1, own, 1 << (colours - 1)]);
        }
    }
    let mut active = grants;
    if colours > 4 {
        active[1] &= 0x5555;
    }
    let mut quotas = [0; DOMAINS];
    quotas[..domains].fill(QUOTA);
    let board = Board {
        colours,
        frames: frames as u32,
        domains: domains as u32,
        grants,
        active,
        quotas,
    };
    (board, caller as u32)
}

/// The pages that are held; the first stands in a table that holds any.
const HELD: [u32; 3] = [PAGES - 1, 0, 77];
const UNMAPPED: u32 = 78;

/// So many frames of the domain, in front, at the end or spread out, and else free frames or words that are no
/// page's of the domain, those next to its own among them.
fn table(domain: u32, frames: usize, held: usize, way: usize) -> Vec<u16> {
    let own: Vec<u16> = HELD.map(|page| word(domain, page) as u16).to_vec();
    let first = word(domain, 0) as u16;
    let others = [first - 1, first + PAGES as u16, RESERVED, 32_769];
    let mut place = 0;
    (0..frames)
        .map(|frame| {
            let is_own = match way % 3 {
                0 => frame < held,
                1 => frame + held >= frames,
                _ => (frame + 1) * held / frames > frame * held / frames,
            };
            match (is_own, way / 3) {
                (true, _) => {
                    place += 1;
                    own[(place - 1) % own.len()]
                }
                (false, 0) => FREE,
                // domain 0 has nothing below but the free word
                (false, _) => match others[frame % 4] {
                    FREE => RESERVED,
                    other => other,
                },
            }
        })
        .collect()
}

/// Each call on a table with quotas around what is held.
fn around(colours: u32, frames: usize, held: usize, way: usize, tally: &mut Tally) {
    let (board, domain) = board(colours, frames);
    let table = table(domain, frames, held, way);
    let start = State { board, table };
    let held = held as u32;
    let edges = [held.saturating_sub(1), held, held + 1, QUOTA];
    for quota in edges.map(|quota| quota.clamp(1, QUOTA)) {
        let mut start = start.clone();
        start.board.quotas[domain as usize] = quota;
        let grant = start.board.grants[domain as usize];
        let lowest = grant & grant.wrapping_neg();
        let set = grant;
        let list = Vec::new();
        let mut calls = vec![
            Call::TakeBack { domain, set, list },
            Call::Fault {
                domain,
                page: UNMAPPED,
            },
            Call::Fault {
                domain,
                page: HELD[0],
            },
            Call::Colours { domain },
            recolour_to(&start, domain, lowest),
        ];
        calls.extend(edges.map(|quota| Call::SetQuota { domain, quota }));
        for call in calls {
            compare(&mut start.clone(), &call, tally);
        }
    }
}

/// Calls of any caller on a board with a number that is no quota, below the count or beyond it, and perhaps with
/// an active set that is none.
fn spoilt(tally: &mut Tally) {
    let (board, own) = board(4, 8);
    let table = table(own, 8, 3, 0);
    for place in 0..DOMAINS {
        for quota in [0, 1, QUOTA, QUOTA + 1, (1 << 16) + 1, u32::MAX] {
            for active in [board.active[2], 0] {
                let mut board = board.clone();
                board.quotas[place] = quota;
                board.active[2] = active;
                let table = table.clone();
                let start = State { board, table };
                for domain in [own, 3, u32::MAX] {
                    let page = HELD[0];
                    let (set, room) = (0x2, 0);
                    let quota = 5;
                    let list = vec![page as u16, 1, 0];
                    for call in [
                        Call::Look { domain, page },
                        Call::Fault { domain, page },
                        Call::Release { domain, page },
                        Call::Colours { domain },
                        Call::Recolour { domain, set, room },
                        Call::SetQuota { domain, quota },
                        Call::TakeBack { domain, set, list },
                    ] {
                        compare(&mut start.clone(), &call, tally);
                    }
                }
            }
        }
    }
}

/// All chosen ones, once.
pub fn all(tally: &mut Tally) {
    spoilt(tally);
    for frames in 1..=40 {
        for colours in [1, 4, 16] {
            for held in [0, 1, 2, frames / 2, frames - 1, frames] {
                for way in 0..6 {
                    around(colours, frames, held.min(frames), way, tally);
                }
            }
        }
    }
    for frames in [4081, 4096] {
        for held in [1, 255, 256, 257, 2048, 4079, 4080, 4081, 4095, 4096] {
            for (colours, way) in [(4, 0), (4, 4), (16, 2), (16, 5)] {
                around(colours, frames, held.min(frames), way, tally);
            }
        }
    }
}

/// Quotas set, faults, releases and recolourings in turn, with quotas near what is held.
pub fn script(random: &mut Random, tally: &mut Tally) {
    let n = random.pick(&[1, 2, 4, 4, 8, 16]);
    let domains = 1 + random.below(n.min(4)) as u32;
    let frames = any_frames(random, n);
    let mut board = accepted(random, n as u32, frames, domains);
    let pages: Vec<u32> = (0..=random.below(12))
        .map(|_| random.below(PAGES.into()) as u32)
        .collect();
    let free = random.pick(&[20, 50, 80, 100]);
    let table: Vec<u16> = (0..frames)
        .map(|_| match random.below(100) < free {
            true => FREE,
            false => any_word(random, domains, &pages),
        })
        .collect();
    limit(random, &mut board, &table);
    let mut state = State { board, table };
    let domain = random.below(domains.into()) as u32;
    for _ in 0..24 {
        let page = random.pick(&pages);
        let call = match random.below(12) {
            0..=2 => any_set_quota(random, &state, domain),
            3..=6 => {
                let any = random.below(PAGES.into()) as u32;
                let page = random.pick(&[page, any]);
                Call::Fault { domain, page }
            }
            7 | 8 => Call::Release { domain, page },
            9 => {
                let set = part_of(random, state.board.grants[domain as usize]);
                recolour_to(&state, domain, set)
            }
            10 => Call::Colours { domain },
            _ => any_call(random, &state, &pages),
        };
        compare(&mut state, &call, tally);
    }
}
