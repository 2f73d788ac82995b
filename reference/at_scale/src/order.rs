//! Recolourings for which it matters where the triples stand: document 02, No. 4. The pages of the frames that
//! move rise, fall, are alike or stand in several frames, with frames of the domain that stay and words of others
//! between; on long tables there are more moves than eight bits count. Random ones go on tables of few pages or
//! of many.

use reference::model::frames::{word, Board, Call, State, DOMAINS, FREE, PAGES, QUOTA, RESERVED};
use reference::random::boards::{any_word, limit, part_of};
use reference::random::Random;

use crate::frames::{any_frames, compare, recolour_to};
use crate::tally::Tally;

/// The page of a domain's frame, by how many of its frames stand before it.
type Pages = fn(u32) -> u32;

const LAST: u32 = PAGES - 1;

const SEQUENCES: [Pages; 14] = [
    |place| place,
    |place| LAST - place,
    |_| 0,
    |_| LAST,
    // each page in two frames or more, one behind the other or far apart
    |place| place / 2,
    |place| LAST - place / 3,
    |place| place % 5,
    |place| LAST - place % 7,
    // first and last pages in turn, from the middle on, and page 0 among others
    |place| if place % 2 == 0 { place } else { LAST - place },
    |place| (PAGES / 2 + place) % PAGES,
    |place| (place + LAST) % PAGES,
    // low bytes that fall where the pages rise, and others that are alike
    |place| 255 * (place + 1) % PAGES,
    |place| 256 * place % PAGES,
    // as if by chance
    |place| 1597 * (place + 11) % PAGES,
];

/// What lies in the new set, frame by frame, and past the last like the last: domain 0 holds some of it, perhaps
/// for the pages that move.
const INSIDE: [[u16; 4]; 5] = [
    [FREE, FREE, FREE, FREE],
    [1, FREE, FREE, FREE],
    [RESERVED, FREE, 4096, FREE],
    [4097, FREE, 6, FREE],
    [FREE, 4096, 1, FREE],
];

/// Domain 0 has all colours.
fn board(colours: u32, frames: u32) -> Board {
    let mut grants = [0; DOMAINS];
    grants[0] = (1 << colours) - 1;
    Board {
        colours,
        frames,
        domains: 1,
        grants,
        active: grants,
        quotas: [QUOTA; DOMAINS],
    }
}

/// Outside the set domain 0 holds two frames for three that are free inside, the first ones, with words of others
/// between.
fn table(board: &Board, set: u32, pages: Pages, inside: &[u16; 4]) -> Vec<u16> {
    let is_inside = |frame: u32| set >> (frame % board.colours) & 1 == 1;
    let targets = (0..board.frames).filter(|frame| is_inside(*frame));
    let words: Vec<u16> = (0..targets.count())
        .map(|place| inside[place.min(3)])
        .collect();
    let free = words.iter().filter(|held| **held == FREE).count();
    let held = (free - free / 3) as u32;
    let mut held = (0..held).map(|place| word(0, pages(place)) as u16);
    let mut words = words.into_iter();
    (0..board.frames)
        .map(|frame| match frame % 11 {
            _ if is_inside(frame) => words.next().unwrap_or(FREE),
            3 => 4097,
            7 => 32_769,
            _ => held.next().unwrap_or(FREE),
        })
        .collect()
}

/// A recolouring to the set with a list that is a word too short, just long enough or longer, and one back.
fn there_and_back(start: &State, set: u32, tally: &mut Tally) {
    let domain = 0;
    let exact = recolour_to(start, domain, set).room();
    for room in [exact.saturating_sub(1), exact, exact + 1, exact + 5] {
        let mut state = start.clone();
        compare(&mut state, &Call::Recolour { domain, set, room }, tally);
        let back = state.board.grants[0] & !set;
        let call = recolour_to(&state, domain, back);
        compare(&mut state, &call, tally);
    }
}

/// All chosen ones, once.
pub fn all(tally: &mut Tally) {
    for colours in [2, 4, 8, 16] {
        let all = (1 << colours) - 1;
        for set in [all & 0x5555, all & 0x6666, all & 0xF0F2, 1] {
            for frames in [3 * colours + 5, 6 * colours + 1] {
                for pages in SEQUENCES {
                    for inside in &INSIDE {
                        let board = board(colours, frames);
                        let table = table(&board, set, pages, inside);
                        there_and_back(&State { board, table }, set, tally);
                    }
                }
            }
        }
    }
    for (colours, set, inside) in [(2, 0x2, &INSIDE[3]), (16, 0x3CC3, &INSIDE[0])] {
        for pages in [1, 6, 11, 13].map(|number| SEQUENCES[number]) {
            let board = board(colours, 4096);
            let table = table(&board, set, pages, inside);
            let mut state = State { board, table };
            let call = recolour_to(&state, 0, set);
            compare(&mut state, &call, tally);
        }
    }
}

/// A table on which a recolouring has much to move, of few pages or of many, and some recolourings.
pub fn script(random: &mut Random, tally: &mut Tally) {
    let colours = random.pick(&[2, 4, 8, 16]);
    let frames = any_frames(random, colours.into());
    let board = board(colours, frames);
    let most = random.pick(&[1, 3, 20, PAGES]);
    let offset = random.below(u64::from(PAGES - most) + 1) as u32;
    let set = part_of(random, board.grants[0]);
    let table = (0..frames)
        .map(|frame| {
            let inside = set >> (frame % colours) & 1 == 1;
            let page = offset + random.below(most.into()) as u32;
            match random.below(10) {
                0 => any_word(random, 1, &[0, page, LAST]),
                1 | 2 if inside => word(0, page) as u16,
                _ if inside => FREE,
                1..=7 => word(0, page) as u16,
                _ => FREE,
            }
        })
        .collect();
    let mut state = State { board, table };
    if random.below(3) == 0 {
        limit(random, &mut state.board, &state.table);
    }
    for set in [set, part_of(random, state.board.grants[0])] {
        let call = recolour_to(&state, 0, set);
        compare(&mut state, &call, tally);
    }
}
