//! Takings back, for which it matters what the list names, what the table has there and which set was active:
//! document 02, No. 10. On chosen tables a list is right, or right but for its length, a page, a frame or two; some
//! name half of the longest table. Random scripts recolour and take back, with other calls between.

use reference::model::frames::{frames_held, has, page_held, word, Answer, Board, Call, State};
use reference::model::frames::{DOMAINS, FREE, PAGES, QUOTA, RESERVED};
use reference::model::reply::Reply;
use reference::random::boards::{accepted, any_domain, any_word, limit, part_of};
use reference::random::lists::{any_take_back, shuffled, spoil};
use reference::random::Random;

use crate::frames::{any_call, any_frames, compare, recolour_to};
use crate::tally::Tally;

/// What the replies show: each occurs in a comparison that has any worth.
#[derive(Default)]
pub struct Seen {
    /// Accepted: with frames outside the former set before the moves, with triples in another order than they are
    /// written in, with another set and an empty list, above the quota.
    strayed: u64,
    unordered: u64,
    empty: u64,
    above: u64,
    /// Refused 31 for one reason alone.
    alone: [u64; REASONS.len()],
    /// Refused 31 with frames that lie outside the former set, and 32 with moves.
    both: u64,
    left: u64,
}

/// Why 31 refuses, in the words of document 02.
const REASONS: [&str; 7] = [
    "no multiple of three",
    "a page above 4,095",
    "a frame from F on",
    "a frame twice",
    "a new frame without the word",
    "an old frame that is not free",
    "an old frame outside the set",
];

impl Seen {
    /// All counts, with what each is of.
    pub fn counts(&self) -> Vec<(&'static str, u64)> {
        let alone = REASONS.into_iter().zip(self.alone);
        let others = [
            ("frames brought back into the set", self.strayed),
            ("triples in another order", self.unordered),
            ("sets changed with an empty list", self.empty),
            ("frames moved back above the quota", self.above),
            ("31 before 32", self.both),
            ("32 with moves", self.left),
        ];
        alone.chain(others).collect()
    }
}

/// Which reasons there are for 31. The word of a page that is none is of 16 bits, as in the table.
fn reasons(state: &State, domain: u32, set: u32, list: &[u16]) -> [bool; REASONS.len()] {
    let State { board, table } = state;
    let (triples, rest) = list.as_chunks::<3>();
    let at = |frame: u16| table.get(usize::from(frame)).copied();
    let any = |reason: &dyn Fn(u16, u16, u16) -> bool| {
        triples
            .iter()
            .any(|[page, old, new]| reason(*page, *old, *new))
    };
    let mut frames: Vec<u16> = triples
        .iter()
        .flat_map(|[_, old, new]| [*old, *new])
        .collect();
    frames.sort();
    [
        !rest.is_empty(),
        any(&|page, _, _| u32::from(page) >= PAGES),
        any(&|_, old, new| at(old).is_none() || at(new).is_none()),
        frames.windows(2).any(|two| two[0] == two[1]),
        any(&|page, _, new| at(new).is_some_and(|held| held != word(domain, page.into()) as u16)),
        any(&|_, old, _| at(old).is_some_and(|held| held != FREE)),
        any(&|_, old, _| at(old).is_some() && !has(set, u32::from(old) % board.colours)),
    ]
}

fn strays(state: &State, domain: u32, set: u32) -> bool {
    let outside = |frame: usize| !has(set, frame as u32 % state.board.colours);
    (0..state.table.len())
        .any(|frame| outside(frame) && page_held(domain, state.table[frame]).is_some())
}

/// Counts the reply to a call.
pub fn count(before: &State, call: &Call, reply: Reply<Answer>, tally: &mut Tally) {
    let Call::TakeBack {
        domain,
        set,
        ref list,
    } = *call
    else {
        return;
    };
    let seen = &mut tally.taken;
    match reply {
        Reply::Answer(_) => {
            let here = domain as usize;
            let (triples, _) = list.as_chunks::<3>();
            let is_ordered = triples.is_sorted_by_key(|[page, old, _]| (*page, *old));
            let held = frames_held(&before.table, domain) as u32;
            let above = held > before.board.quotas[here] && !list.is_empty();
            seen.strayed += u64::from(strays(before, domain, set));
            seen.unordered += u64::from(!is_ordered);
            seen.empty += u64::from(list.is_empty() && set != before.board.active[here]);
            seen.above += u64::from(above);
        }
        Reply::Refused { number: 31, .. } => {
            let reasons = reasons(before, domain, set, list);
            if reasons.iter().filter(|holds| **holds).count() == 1 {
                for (count, holds) in seen.alone.iter_mut().zip(reasons) {
                    *count += u64::from(holds);
                }
            }
            seen.both += u64::from(strays(before, domain, set));
        }
        Reply::Refused { number: 32, .. } => seen.left += u64::from(!list.is_empty()),
        _ => {}
    }
}

/// Domain 1 of three calls, so that there are words below and above its own; with few colours, the only domain. It
/// holds more frames than its quota.
fn board(colours: u32, frames: u32) -> (Board, u32) {
    let all = (1u32 << colours) - 1;
    let mut grants = [0; DOMAINS];
    let domains = match colours {
        1 | 2 => {
            grants[0] = all;
            1
        }
        _ => {
            let last = 1 << (colours - 1);
            grants[..3].copy_from_slice(&[0x1, all & !0x1 & !last, last]);
            3
        }
    };
    let mut quotas = [0; DOMAINS];
    quotas[..domains].fill(QUOTA);
    quotas[domains / 2] = 1;
    let board = Board {
        colours,
        frames,
        domains: domains as u32,
        grants,
        active: grants,
        quotas,
    };
    (board, (domains / 2) as u32)
}

/// Of five frames two are the domain's, for pages of their own or all for one, and two are free. The others are next
/// to the domain's first and last words, or reserved.
fn table(domain: u32, frames: u32, one_page: bool) -> Vec<u16> {
    let first = word(domain, 0) as u16;
    let others = [
        first.wrapping_add(PAGES as u16),
        RESERVED,
        first - 1,
        32_769,
    ];
    let mut others = others.into_iter().cycle();
    (0..frames)
        .map(|frame| match (frame / 2 + frame) % 5 {
            0 | 3 if one_page => word(domain, 9) as u16,
            0 | 3 => word(domain, PAGES - 1 - frame) as u16,
            1 | 4 => FREE,
            _ => others.next().expect("they go round"),
        })
        .collect()
}

/// The domain's frames outside the set, or all, to the free frames of the set, as far as these go.
fn list_of(state: &State, domain: u32, set: u32, all: bool) -> Vec<u16> {
    let is_inside = |frame: &usize| has(set, *frame as u32 % state.board.colours);
    let frames = 0..state.table.len();
    let free = frames
        .clone()
        .filter(|frame| state.table[*frame] == FREE && is_inside(frame));
    frames
        .filter(|frame| all || !is_inside(frame))
        .filter_map(|frame| Some((frame, page_held(domain, state.table[frame])?)))
        .zip(free)
        .flat_map(|((new, page), old)| [page, old as u16, new as u16])
        .collect()
}

/// Lists that differ from a right one in their length, in the order of triples or words, or in one place, which may
/// be of a first triple or of the last.
fn variants(state: &State, domain: u32, right: &[u16]) -> Vec<Vec<u16>> {
    let mut lists = vec![
        right.to_vec(),
        right.rchunks(3).flatten().copied().collect(),
    ];
    let length = right.len();
    for less in 1..=length.min(4) {
        lists.push(right[..length - less].to_vec());
        lists.push(right[less..].to_vec());
    }
    for more in [&[0][..], &[0, 0], &[0, 0, 0], &[65_535; 3], right] {
        lists.push([right, more].concat());
    }
    if length == 0 {
        return lists;
    }
    let with = |changes: &[(usize, u16)]| {
        let mut list = right.to_vec();
        for (place, word) in changes {
            list[*place] = *word;
        }
        list
    };
    let frames = state.table.len() as u16;
    let first = word(domain, 0) as u16;
    let page_of = |frame: u16| state.table[usize::from(frame)].wrapping_sub(first);
    let last = length - 3;
    for at in [0, 3, last] {
        if at > last {
            continue;
        }
        for page in [4096, right[at] + 4096, right[at] + 1, 65_535] {
            lists.push(with(&[(at, page)]));
        }
        for place in [at + 1, at + 2] {
            for frame in [frames, frames + 1, right[place] + frames, 4096, 65_535] {
                lists.push(with(&[(place, frame)]));
            }
        }
        for frame in 0..frames.min(24) {
            lists.push(with(&[(at + 1, frame)]));
            // with the page that makes its word
            lists.push(with(&[(at, page_of(frame)), (at + 2, frame)]));
        }
    }
    let places = |at: usize| [at + 1, at + 2];
    for from in [0, 3, 6, last].into_iter().flat_map(places) {
        for to in [0, 3, 6, last].into_iter().flat_map(places) {
            if from < length && to < length && from != to {
                lists.push(with(&[(to, right[from])]));
                let pages = (to - to % 3, right[from - from % 3]);
                lists.push(with(&[pages, (to, right[from])]));
            }
        }
    }
    lists
}

/// All chosen ones, once.
pub fn all(tally: &mut Tally) {
    for (colours, step) in [(1, 3), (2, 2), (4, 1), (16, 2)] {
        for frames in (1..=34).step_by(step) {
            let (board, domain) = board(colours, frames);
            let grant = board.grants[domain as usize];
            let upper = grant & !(grant & grant.wrapping_neg());
            for (set, one_page) in [
                (grant, false),
                (upper, true),
                (upper, false),
                (grant & 0x66, true),
            ] {
                let mut state = State {
                    board: board.clone(),
                    table: table(domain, frames, one_page),
                };
                // another set than the former one is active
                state.board.active[domain as usize] = grant & grant.wrapping_neg();
                let right = list_of(&state, domain, set, frames % 2 == 0);
                for list in variants(&state, domain, &right) {
                    let call = Call::TakeBack { domain, set, list };
                    compare(&mut state.clone(), &call, tally);
                }
            }
        }
    }
    for colours in [2, 16] {
        long(colours, 4096, tally);
    }
    long(4, 4095, tally);
}

/// Half of a long table goes back to the other half, and lists that are not right in their last triple.
fn long(colours: u32, frames: u32, tally: &mut Tally) {
    let mut grants = [0; DOMAINS];
    grants[0] = (1 << colours) - 1;
    let mut board = Board {
        colours,
        frames,
        domains: 1,
        grants,
        active: grants,
        quotas: [QUOTA; DOMAINS],
    };
    let set = grants[0] & 0x6969;
    board.active[0] = grants[0] & !set;
    let table = (0..frames)
        .map(|frame| match has(set, frame % colours) {
            true => FREE,
            false => word(0, 1597 * frame % PAGES) as u16,
        })
        .collect();
    let state = State { board, table };
    let right = list_of(&state, 0, set, true);
    let last = right.len() - 3;
    let with = |place: usize, word: u16| {
        let mut list = right.clone();
        list[place] = word;
        list
    };
    let lists = [
        right.clone(),
        right.rchunks(3).flatten().copied().collect(),
        right[3..].to_vec(),
        right[..last].to_vec(),
        right[1..].to_vec(),
        [&right[..], &right[..3]].concat(),
        with(last, 4096),
        with(last + 1, right[1]),
        with(last + 2, right[2]),
        with(last + 1, frames as u16),
        with(1, right[last + 1]),
    ];
    for list in lists {
        let (domain, list) = (0, list);
        compare(
            &mut state.clone(),
            &Call::TakeBack { domain, set, list },
            tally,
        );
    }
}

/// Recolourings that are taken back, right or not, after calls of others or own ones; and takings back of frames that
/// no recolouring has moved.
pub fn script(random: &mut Random, tally: &mut Tally) {
    let n = random.pick(&[1, 2, 4, 4, 8, 16]);
    let domains = 1 + random.below(n.min(4)) as u32;
    let frames = any_frames(random, n);
    let mut board = accepted(random, n as u32, frames, domains);
    let pages: Vec<u32> = (0..=random.below(12))
        .map(|_| random.below(PAGES.into()) as u32)
        .chain([0])
        .collect();
    let free = random.pick(&[50, 80, 100]);
    let table: Vec<u16> = (0..frames)
        .map(|_| match random.below(100) < free {
            true => FREE,
            false => any_word(random, domains, &pages),
        })
        .collect();
    if random.below(2) == 0 {
        limit(random, &mut board, &table);
    }
    let mut state = State { board, table };
    let domain = random.below(domains.into()) as u32;
    for _ in 0..4 {
        for _ in 0..random.below(4) {
            let page = random.below(PAGES.into()) as u32;
            compare(&mut state, &Call::Fault { domain, page }, tally);
        }
        let former = state.board.active[domain as usize];
        let set = part_of(random, state.board.grants[domain as usize]);
        let call = recolour_to(&state, domain, set);
        let mut list = vec![0; call.room()];
        state.clone().call(&call, &mut list);
        compare(&mut state, &call, tally);
        for _ in 0..random.below(3) {
            let call = match any_domain(random, domains) {
                own if own == domain && random.below(3) > 0 => Call::Colours { domain },
                _ => any_call(random, &state, &pages),
            };
            compare(&mut state, &call, tally);
        }
        for _ in 0..2 {
            let mut list = list.clone();
            spoil(random, &state, domain, former, &mut list);
            let set = random.pick(&[former, former, former, set]);
            compare(&mut state, &Call::TakeBack { domain, set, list }, tally);
        }
        let list = shuffled(random, &list);
        let set = former;
        compare(&mut state, &Call::TakeBack { domain, set, list }, tally);
        let call = any_take_back(random, &state, domain);
        compare(&mut state, &call, tally);
    }
}
