//! Faults on tables of every length from 1 to 64 and around 4,096: document 02, No. 2, after which answers and
//! tables are as before. The page's word stands nowhere, in each frame, or at the edges of blocks of sixteen,
//! once or twice, in frames inside and outside the set; free frames are none, all, those outside the set, or one.

use reference::model::frames::{word, Board, Call, State, DOMAINS, FREE, QUOTA};

use crate::frames::compare;
use crate::tally::Tally;

const PAGE: u32 = 4095;
/// Held for another page, whoever calls.
const OTHER_PAGE: u32 = 7;

/// Two domains, or one where there is one colour; the last calls, and if it can it leaves a colour inactive.
fn board(colours: u32, frames: usize) -> Board {
    let all = (1u32 << colours) - 1;
    let lower = (1u32 << (colours / 2)) - 1;
    let mut grants = [0; DOMAINS];
    let domains = match colours {
        1 => 1,
        _ => 2,
    };
    grants[0] = lower;
    grants[domains - 1] = all & !lower;
    let mut active = grants;
    let set = &mut active[domains - 1];
    if !set.is_power_of_two() {
        *set &= *set - 1;
    }
    Board {
        colours,
        frames: frames as u32,
        domains: domains as u32,
        grants,
        active,
        quotas: [QUOTA; DOMAINS],
    }
}

/// All frames of a short table, and of a long one those at the edges of blocks.
fn places(frames: usize) -> Vec<usize> {
    let whole = frames / 16 * 16;
    let mut edges = vec![0, 1, 15, 16, 17, 31, 32, frames / 2, whole - whole.min(17)];
    edges.extend([
        whole - whole.min(16),
        whole - whole.min(1),
        whole,
        frames - 1,
    ]);
    edges.sort();
    edges.dedup();
    match frames {
        0..=64 => (0..frames).collect(),
        _ => edges.into_iter().filter(|place| *place < frames).collect(),
    }
}

/// The tables without the page: no frame is free, all are, all outside the set, or one.
fn fills(board: &Board, caller: usize, frames: usize) -> Vec<Vec<u16>> {
    let held = word(caller as u32, OTHER_PAGE) as u16;
    let outside = |frame: usize| match board.active[caller] >> (frame as u32 % board.colours) & 1 {
        0 => FREE,
        _ => held,
    };
    let mut fills = vec![vec![held; frames], vec![FREE; frames]];
    fills.push((0..frames).map(outside).collect());
    for place in [0, 15, 16, frames - 1] {
        if place < frames {
            let mut table = vec![held; frames];
            table[place] = FREE;
            fills.push(table);
        }
    }
    fills
}

fn faults(colours: u32, frames: usize, tally: &mut Tally) {
    let board = board(colours, frames);
    let domain = board.domains - 1;
    let page = word(domain, PAGE) as u16;
    let places = places(frames);
    let once = places.iter().map(|place| vec![*place]);
    let twice = places.iter().map(|place| vec![*place, frames - 1]);
    let mapped: Vec<Vec<usize>> = once.chain(twice).chain([vec![]]).collect();
    for fill in fills(&board, domain as usize, frames) {
        for mapped in &mapped {
            let mut table = fill.clone();
            for place in mapped {
                table[*place] = page;
            }
            let board = board.clone();
            let mut state = State { board, table };
            let call = Call::Fault { domain, page: PAGE };
            compare(&mut state, &call, tally);
        }
    }
}

/// All of them, once.
pub fn all(tally: &mut Tally) {
    for frames in 1..=64 {
        for colours in [1, 2, 4, 8, 16] {
            faults(colours, frames, tally);
        }
    }
    for frames in [4079, 4080, 4081, 4087, 4088, 4089, 4094, 4095, 4096] {
        for colours in [4, 16] {
            faults(colours, frames, tally);
        }
    }
}
