//! Calls for which it matters how many frames of each colour the domain holds: document 02, No. 7. On tables of
//! chosen shapes three colours take each shape of a few, and on long tables there are more frames of a colour,
//! or of a lane (the frame's number modulo 16), than eight bits count. Random scripts of releases, faults and
//! recolourings go on crowded tables.

use reference::model::frames::{word, Board, Call, State, DOMAINS, FREE, PAGES, QUOTA, RESERVED};
use reference::random::boards::{accepted, crowded_table, limit, part_of};
use reference::random::Random;

use crate::frames::{any_call, any_frames, compare, recolour_to};
use crate::tally::Tally;

/// Another domain's word, and one of nobody's.
const OTHERS: u16 = 4097;
const NOBODYS: u16 = 32_769;

/// The first frames of a colour, and any frame past these is like the last. Domain 0 has the words 1 to 4,096.
const SHAPES: [[u16; 4]; 8] = [
    [FREE, FREE, FREE, FREE],
    [1, FREE, FREE, FREE],
    [FREE, 2, 3, RESERVED],
    [1, 4096, FREE, RESERVED],
    [4096, RESERVED, RESERVED, RESERVED],
    [RESERVED, RESERVED, RESERVED, RESERVED],
    [OTHERS, NOBODYS, FREE, FREE],
    [5, 5, RESERVED, FREE],
];

/// Domain 0 has all colours, and these active.
fn board(colours: u32, frames: usize, active: u32) -> Board {
    let mut grants = [0; DOMAINS];
    grants[0] = (1 << colours) - 1;
    let mut board = Board {
        colours,
        frames: frames as u32,
        domains: 1,
        grants,
        active: grants,
        quotas: [QUOTA; DOMAINS],
    };
    board.active[0] = active;
    board
}

/// Some faults of unmapped pages, and a recolouring to the set, from one state.
fn faults_and_recolouring(start: &State, set: u32, tally: &mut Tally) {
    let mut state = start.clone();
    for page in 100..104 {
        compare(&mut state, &Call::Fault { domain: 0, page }, tally);
    }
    let mut state = start.clone();
    let (domain, page) = (0, 100);
    let call = recolour_to(&state, domain, set);
    compare(&mut state, &call, tally);
    compare(&mut state, &Call::Fault { domain, page }, tally);
}

/// Three colours, or two, each in every shape, and of the others one with frames that a recolouring moves.
fn shapes(colours: u32, lowest: u32, frames: usize, tally: &mut Tally) {
    let count = colours.min(3);
    let set = ((1u32 << count) - 1) << lowest;
    let stray = (lowest + count) % colours;
    for number in 0..SHAPES.len().pow(count) {
        let shape = |colour: u32| SHAPES[number / SHAPES.len().pow(colour - lowest) % SHAPES.len()];
        let table = (0..frames)
            .map(|frame| {
                let colour = frame as u32 % colours;
                let place = frame / colours as usize;
                match set >> colour & 1 {
                    1 => shape(colour)[place.min(3)],
                    _ if colour == stray => word(0, 10 + place as u32) as u16,
                    _ => FREE,
                }
            })
            .collect();
        let board = board(colours, frames, set);
        faults_and_recolouring(&State { board, table }, set, tally);
    }
}

/// A long table in which the domain holds so many frames of each lane, the first or the last.
fn long(colours: u32, frames: usize, held: [usize; 16], last: bool, tally: &mut Tally) {
    let table = (0..frames)
        .map(|frame| {
            let place = match last {
                true => (frames - 1) / 16 - frame / 16,
                false => frame / 16,
            };
            match place < held[frame % 16] {
                true => word(0, frame as u32 * 7 % PAGES) as u16,
                false => FREE,
            }
        })
        .collect();
    let all = (1 << colours) - 1;
    let board = board(colours, frames, all);
    let set = if colours > 2 { all & !0x2 } else { 1 };
    faults_and_recolouring(&State { board, table }, set, tally);
}

/// All chosen ones, once.
pub fn all(tally: &mut Tally) {
    for colours in [2, 4, 8, 16] {
        for lowest in [0, colours - colours.min(3)] {
            for frames in [3 * colours as usize + 1, 4 * colours as usize + 3] {
                shapes(colours, lowest, frames, tally);
            }
        }
    }
    // all frames of lane 0 are held, whose colour has others where N is 8 and less
    let lanes = |held: [usize; 4]| std::array::from_fn(|lane| held[lane % 4]);
    let mut full: [usize; 16] = lanes([40, 60, 20, 80]);
    full[0] = 256;
    for colours in [1, 2, 4, 8, 16] {
        for frames in [4081, 4096] {
            for last in [false, true] {
                long(colours, frames, full, last, tally);
                long(colours, frames, lanes([150, 40, 30, 100]), last, tally);
            }
        }
    }
}

/// The pages of the domain's frames, all or those of one colour.
fn held_pages(state: &State, domain: u32, colour: Option<u32>) -> Vec<u32> {
    let first = word(domain, 0);
    let of_colour = |frame: &usize| colour.is_none_or(|c| *frame as u32 % state.board.colours == c);
    let words = (0..state.table.len()).filter(of_colour);
    words
        .filter_map(|frame| u64::from(state.table[frame]).checked_sub(first))
        .filter(|page| *page < u64::from(PAGES))
        .map(|page| page as u32)
        .collect()
}

/// Releases, of frames of one colour as a rule, faults of pages that are seldom mapped, recolourings, and
/// any calls.
pub fn script(random: &mut Random, tally: &mut Tally) {
    let n = random.pick(&[1, 2, 4, 4, 8, 8, 16]);
    let domains = 1 + random.below(n.min(3)) as u32;
    let frames = any_frames(random, n);
    let mut board = accepted(random, n as u32, frames, domains);
    let most = random.pick(&[1, 4, 30]);
    let pages: Vec<u32> = (0..=random.below(most))
        .map(|_| random.below(PAGES.into()) as u32)
        .collect();
    let table = crowded_table(random, &board, &pages);
    if random.below(4) == 0 {
        limit(random, &mut board, &table);
    }
    let mut state = State { board, table };
    let crowd = random.below(n) as u32;
    for _ in 0..30 {
        let domain = random.below(domains.into()) as u32;
        let colour = random.pick(&[None, Some(crowd), Some(crowd)]);
        let held = held_pages(&state, domain, colour);
        let call = match random.below(9) {
            0..=2 if !held.is_empty() => {
                let page = random.pick(&held);
                Call::Release { domain, page }
            }
            3..=6 => {
                let page = random.below(PAGES.into()) as u32;
                Call::Fault { domain, page }
            }
            7 => {
                let set = part_of(random, state.board.grants[domain as usize]);
                recolour_to(&state, domain, set)
            }
            _ => any_call(random, &state, &pages),
        };
        compare(&mut state, &call, tally);
    }
}
