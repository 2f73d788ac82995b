//! Random lists for takings back (document 02, No. 10), shared by the vectors, the histories and the comparison at
//! scale: right ones, and ones that are right but for a little.

use crate::model::frames::{page_held, Call, State, FREE, PAGES};
use crate::random::boards::{any_set, part_of};
use crate::random::Random;

/// Whether the frame's colour is in the set, on any board.
fn is_inside(state: &State, set: u32, frame: usize) -> bool {
    let colour = frame as u32 % state.board.colours.max(1);
    set.checked_shr(colour).is_some_and(|bits| bits & 1 == 1)
}

/// The domain's frames, each with its page.
fn own(state: &State, domain: u32) -> Vec<(usize, u16)> {
    let words = state.table.iter().enumerate();
    words
        .filter_map(|(frame, held)| Some((frame, page_held(domain, *held)?)))
        .collect()
}

fn free(state: &State, set: u32) -> Vec<usize> {
    (0..state.table.len())
        .filter(|frame| state.table[*frame] == FREE && is_inside(state, set, *frame))
        .collect()
}

/// A list that is accepted with the set, if the set has enough free frames: all frames of the domain outside it and
/// some inside go to such, in any order.
pub fn right_list(random: &mut Random, state: &State, domain: u32, set: u32) -> Vec<u16> {
    let mut targets = free(state, set);
    random.shuffle(&mut targets);
    let more = random.pick(&[0, 0, 10, 50, 100]);
    let mut moved = own(state, domain);
    moved.retain(|(frame, _)| !is_inside(state, set, *frame) || random.below(100) < more);
    // those outside first, so that they are not left for want of targets
    moved.sort_by_key(|(frame, _)| is_inside(state, set, *frame));
    let mut triples: Vec<[u16; 3]> = moved
        .into_iter()
        .zip(targets)
        .map(|((new, page), old)| [page, old as u16, new as u16])
        .collect();
    random.shuffle(&mut triples);
    triples.into_flattened()
}

/// A page that is none, often one with which the word is that of a frame of somebody else.
fn no_page(random: &mut Random, page: u16) -> u16 {
    let pages = PAGES as u16;
    let other = pages * (1 + random.below(15) as u16) + page % pages;
    random.pick(&[
        pages,
        pages + 1,
        pages + page % pages,
        other,
        32_768,
        65_535,
    ])
}

/// Changes the list a little. It is seldom right afterwards.
pub fn spoil(random: &mut Random, state: &State, domain: u32, set: u32, list: &mut Vec<u16>) {
    let rubbish = [0, 1, 4095, 4096, 65_535, random.word() as u16];
    let frames = state.table.len().max(1);
    let any_frame = random.below(frames as u64) as u16;
    let way = random.below(22);
    match way {
        0 => list.push(random.pick(&rubbish)),
        1 => list.extend([random.pick(&rubbish), any_frame]),
        2 => list.extend([random.pick(&rubbish), any_frame, random.pick(&rubbish)]),
        _ => {}
    }
    let (triples, _) = list.as_chunks_mut::<3>();
    if triples.is_empty() || way < 3 {
        return;
    }
    let count = triples.len() as u64;
    let here = random.below(count) as usize;
    let there = random.below(count) as usize;
    let beyond = [
        frames as u16,
        frames as u16 + 1,
        frames as u16 + triples[here][1] % 4096,
        4096,
        65_535,
    ];
    match way {
        3 => {
            list.pop();
        }
        4 => {
            list.drain(3 * here..3 * here + 3);
        }
        5 => {
            let again = triples[here];
            list.extend(again);
        }
        6 => triples[here][0] = no_page(random, triples[here][0]),
        // somebody else's frame, with the page that makes its word: any, or 4,096
        7 | 8 => {
            let first = 1 + (domain as u16).wrapping_mul(PAGES as u16);
            let page = |frame: usize| state.table[frame].wrapping_sub(first);
            let others: Vec<usize> = (0..state.table.len())
                .filter(|frame| match way {
                    7 => page(*frame) >= PAGES as u16,
                    _ => page(*frame) == PAGES as u16,
                })
                .collect();
            if !others.is_empty() {
                let frame = random.pick(&others);
                triples[here][0] = page(frame);
                triples[here][2] = frame as u16;
            }
        }
        9 => triples[here][1] = random.pick(&beyond),
        10 => triples[here][2] = random.pick(&beyond),
        // a frame twice
        11 => triples[here][1] = triples[there][1],
        12 => (triples[here][0], triples[here][2]) = (triples[there][0], triples[there][2]),
        13 => {
            let [from, to] = [(); 2].map(|()| 1 + random.below(2) as usize);
            triples[here][to] = triples[there][from];
        }
        14 => triples[here][1] = any_frame,
        15 => triples[here][2] = any_frame,
        // free, of another set
        16 => {
            let outside = free(state, !set);
            if !outside.is_empty() {
                triples[here][1] = random.pick(&outside) as u16;
            }
        }
        17 => {
            let other = triples[here][0].wrapping_add(1 + random.below(3) as u16);
            triples[here][0] = other % PAGES as u16;
        }
        18 => triples[here].swap(1, 2),
        // on from the frame to which another triple goes back
        19 => {
            let [page, old, _] = triples[there];
            (triples[here][0], triples[here][2]) = (page, old);
        }
        // in the set, and not free
        20 => {
            let taken: Vec<usize> = (0..state.table.len())
                .filter(|frame| state.table[*frame] != FREE && is_inside(state, set, *frame))
                .collect();
            if !taken.is_empty() {
                triples[here][1] = random.pick(&taken) as u16;
            }
        }
        _ => {
            let place = random.below(3 * count) as usize;
            list.swap(3 * here, place);
        }
    }
}

/// A taking back, accepted as a rule where the set has enough free frames.
pub fn any_take_back(random: &mut Random, state: &State, domain: u32) -> Call {
    let grants = state.board.grants;
    let grant = *grants.get(domain as usize).unwrap_or(&0xFFFF);
    let set = match random.below(3) {
        0 => any_set(random, grant),
        _ => part_of(random, grant),
    };
    let mut list = right_list(random, state, domain, set);
    for _ in 0..random.pick(&[0, 0, 0, 1, 1, 2]) {
        spoil(random, state, domain, set, &mut list);
    }
    Call::TakeBack { domain, set, list }
}

/// The triples in another order, which is as good.
pub fn shuffled(random: &mut Random, list: &[u16]) -> Vec<u16> {
    let (triples, _) = list.as_chunks::<3>();
    let mut triples = triples.to_vec();
    random.shuffle(&mut triples);
    triples.into_flattened()
}
