//! Taking a recolouring back: document 02, No. 10, with refusals 31 and 32. It is defined for every board, table,
//! number and list.

use std::collections::BTreeSet;

use crate::model::frames::{
    has, page_held, refused_caller, unfit, word, Answer, Board, FREE, PAGES,
};
use crate::model::reply::Reply;

/// Page, old frame and new frame, as the recolouring has written them.
type Triple = [u16; 3];

/// The triples of a list that 31 does not refuse.
fn triples(
    board: &Board,
    table: &[u16],
    domain: u32,
    set: u32,
    list: &[u16],
) -> Option<Vec<Triple>> {
    let (triples, []) = list.as_chunks() else {
        return None;
    };
    let mut named = BTreeSet::new();
    for [page, old, new] in triples {
        if u32::from(*page) >= PAGES {
            return None;
        }
        for frame in [*old, *new] {
            if u32::from(frame) >= board.frames || !named.insert(frame) {
                return None;
            }
        }
        let is_held = u64::from(table[usize::from(*new)]) == word(domain, (*page).into());
        let is_free = table[usize::from(*old)] == FREE;
        if !is_held || !is_free || !has(set, u32::from(*old) % board.colours) {
            return None;
        }
    }
    Some(triples.to_vec())
}

/// "Given just the triples and the former set, the call moves each frame back, makes that set active and answers
/// the count of moves." 32 is judged on the table as the moves would leave it.
pub fn take_back(
    board: &mut Board,
    table: &mut [u16],
    domain: u32,
    set: u32,
    list: &[u16],
) -> Reply<Answer> {
    if let Some(refusal) = refused_caller(board, table, domain) {
        return refusal;
    }
    if unfit(set, board.grants[domain as usize]) {
        return Reply::refused(9);
    }
    let Some(triples) = triples(board, table, domain, set, list) else {
        return Reply::refused(31);
    };
    let mut after = table.to_vec();
    for [page, old, new] in &triples {
        after[usize::from(*new)] = FREE;
        after[usize::from(*old)] = word(domain, (*page).into()) as u16;
    }
    let strays = (0..).zip(&after).any(|(frame, held)| {
        page_held(domain, *held).is_some() && !has(set, frame % board.colours)
    });
    if strays {
        return Reply::refused(32);
    }
    table.copy_from_slice(&after);
    board.active[domain as usize] = set;
    Reply::Answer(Answer::Moved(triples.len()))
}

#[cfg(test)]
mod tests {
    use super::*;
    use crate::model::frames::{fault, recolour, release, DOMAINS, QUOTA, RESERVED};

    fn board(frames: u32, sets: &[(u32, u32)]) -> Board {
        let mut board = Board {
            colours: 4,
            frames,
            domains: sets.len() as u32,
            grants: [0; DOMAINS],
            active: [0; DOMAINS],
            quotas: [QUOTA; DOMAINS],
        };
        for (domain, (grant, active)) in sets.iter().enumerate() {
            (board.grants[domain], board.active[domain]) = (*grant, *active);
        }
        board
    }

    fn moved(count: usize) -> Reply<Answer> {
        Reply::Answer(Answer::Moved(count))
    }

    /// A call that is refused, and changes nothing.
    fn refused(board: &Board, table: &[u16], domain: u32, set: u32, list: &[u16], number: u32) {
        let (mut after, mut words) = (board.clone(), table.to_vec());
        let reply = take_back(&mut after, &mut words, domain, set, list);
        assert_eq!(reply, Reply::refused(number), "{set:#x} {list:?}");
        assert_eq!((&after, &*words), (board, table));
    }

    /// The recorder's board and recolouring of document 01. Domain 1 has released a frame and taken two meanwhile.
    #[test]
    fn the_recorders_recolouring() {
        let mut board = board(8, &[(0x3, 0x3), (0xC, 0xC)]);
        let before = board.clone();
        let mut table = [10, 2, 4097, 0, 0, 0, 0, 0];
        let mut moves = [0; 3];
        assert_eq!(
            recolour(&mut board, &mut table, 0, 0x1, &mut moves),
            moved(1)
        );
        assert_eq!(moves, [1, 1, 4]);
        release(&board, &mut table, 1, 0);
        fault(&board, &mut table, 1, 8);
        fault(&board, &mut table, 1, 9);
        assert_eq!(table, [10, 0, 4105, 4106, 2, 0, 0, 0]);
        let reply = take_back(&mut board, &mut table, 0, 0x3, &moves);
        assert_eq!(reply, moved(1));
        assert_eq!(table, [10, 2, 4105, 4106, 0, 0, 0, 0]);
        assert_eq!(board, before);
        // it is no longer so
        refused(&board, &table, 0, 0x3, &moves, 31);
        assert_eq!(take_back(&mut board, &mut table, 0, 0x3, &[]), moved(0));
        refused(&board, &table, 0, 0x2, &[], 32);
        refused(&board, &table, 0, 0x1, &[], 32);
    }

    /// Domain 0 holds frame 0 for page 5, frame 4 for page 6 and frame 8 for page 5; free of its colours are 1, 5, 9
    /// and 12. Domain 1 holds frame 2 for page 5.
    fn crowded() -> (Board, [u16; 13]) {
        let table = [6, 0, 4102, 0, 7, 0, RESERVED, 0, 6, 0, 4097, 0, 0];
        (board(13, &[(0x3, 0x1), (0xC, 0xC)]), table)
    }

    #[test]
    fn right_lists_in_any_order() {
        let (start, words) = crowded();
        for list in [
            [5, 1, 0, 6, 5, 4, 5, 9, 8],
            [6, 5, 4, 5, 9, 8, 5, 1, 0],
            [5, 9, 8, 5, 1, 0, 6, 5, 4],
        ] {
            let (mut board, mut table) = (start.clone(), words);
            let reply = take_back(&mut board, &mut table, 0, 0x2, &list);
            assert_eq!(reply, moved(3));
            assert_eq!(table, [0, 6, 4102, 0, 0, 7, RESERVED, 0, 0, 6, 4097, 0, 0]);
            assert_eq!(board.active[..2], [0x2, 0xC]);
        }
        // with a set in which the rest lies, too, some of them do
        let (mut board, mut table) = (start, words);
        let reply = take_back(&mut board, &mut table, 0, 0x3, &[6, 12, 4]);
        assert_eq!(reply, moved(1));
        assert_eq!(table, [6, 0, 4102, 0, 0, 0, RESERVED, 0, 6, 0, 4097, 0, 7]);
        assert_eq!(board.active[..2], [0x3, 0xC]);
    }

    #[test]
    fn wrong_lists() {
        let (board, table) = crowded();
        let lists: [&[u16]; 24] = [
            &[5],
            &[5, 1],
            &[5, 1, 0, 6],
            &[5, 1, 0, 6, 5],
            // the word of domain 1's page 5 in frame 2, and pages further off
            &[4096 + 5, 1, 2],
            &[4096, 1, 10],
            &[65_535, 1, 0],
            &[5 + 4096 * 8, 1, 0],
            // frames from F on
            &[5, 13, 0],
            &[5, 1, 13],
            &[5, 17, 0],
            &[5, 4096, 0],
            &[5, 65_535, 0],
            &[5, 1, 65_535],
            // a frame twice: two old ones, two new ones, one of either, one triple
            &[5, 1, 0, 6, 1, 4],
            &[5, 1, 0, 5, 5, 0],
            &[5, 1, 0, 6, 0, 4],
            &[5, 1, 0, 5, 9, 1],
            &[5, 0, 0],
            // another page's frame, and a free one
            &[6, 1, 0],
            &[5, 1, 5],
            // an old frame that is held, one that is reserved and in no set of the domain, one of a colour outside
            &[5, 4, 0],
            &[5, 6, 0],
            &[5, 3, 0],
        ];
        for list in lists {
            refused(&board, &table, 0, 0x3, list, 31);
        }
        // colour 0 is active, and not of the former set
        refused(&board, &table, 0, 0x2, &[5, 12, 0], 31);
    }

    #[test]
    fn frames_left_outside() {
        let (board, table) = crowded();
        refused(&board, &table, 0, 0x2, &[], 32);
        refused(&board, &table, 0, 0x2, &[5, 1, 0, 6, 5, 4], 32);
        refused(&board, &table, 0, 0x2, &[5, 1, 0, 5, 9, 8], 32);
        // 31 goes before, and 9 before that
        refused(&board, &table, 0, 0x2, &[5, 1, 0, 6, 5], 31);
        for set in [0, 0x4, 0x7, 0x10, 1 << 31] {
            refused(&board, &table, 0, set, &[5], 9);
        }
        refused(&board, &table, 2, 0, &[5], 8);
    }

    /// A frame in another domain's colour counts, and one of another domain does not.
    #[test]
    fn frames_of_any_colour() {
        let (mut board, mut table) = crowded();
        table[3] = 8;
        refused(&board, &table, 0, 0x3, &[], 32);
        let reply = take_back(&mut board, &mut table, 0, 0x3, &[7, 12, 3]);
        assert_eq!(reply, moved(1));
        assert_eq!((table[3], table[12]), (FREE, 8));
        assert_eq!(take_back(&mut board, &mut table, 1, 0x4, &[]), moved(0));
        assert_eq!(board.active[..2], [0x3, 0x4]);
    }

    /// Held above the quota, which plays no part; but for 26.
    #[test]
    fn whatever_the_quota() {
        let (mut board, mut table) = crowded();
        board.quotas[0] = 1;
        refused(&board, &table, 0, 0x2, &[], 32);
        let reply = take_back(&mut board, &mut table, 0, 0x3, &[5, 1, 0]);
        assert_eq!(reply, moved(1));
        assert_eq!(board.quotas[..2], [1, QUOTA]);
        board.quotas[1] = 0;
        refused(&board, &table, 0, 0x3, &[], 26);
        refused(&board, &table, 2, 0x3, &[5], 26);
    }

    /// Half of the longest table goes back to the other half: no list that passes is longer.
    #[test]
    fn the_longest_list() {
        let mut board = board(4096, &[(0xF, 0x5)]);
        let held = |colour: u16| {
            move |frame: u16| {
                if frame % 2 == colour {
                    1 + frame / 2
                } else {
                    0
                }
            }
        };
        let mut table: Vec<u16> = (0..4096).map(held(0)).collect();
        let mut list: Vec<u16> = (0..2048)
            .flat_map(|page| [page, 2 * page + 1, 2 * page])
            .collect();
        let reply = take_back(&mut board, &mut table, 0, 0xA, &list);
        assert_eq!(reply, moved(2048));
        assert_eq!(table, (0..4096).map(held(1)).collect::<Vec<u16>>());
        for triple in list.as_chunks_mut::<3>().0 {
            triple.swap(1, 2);
        }
        // the last frame is the first's, too
        list[6143] = 1;
        list[6141] = 0;
        refused(&board, &table, 0, 0x5, &list, 31);
        // a triple more names some frame twice
        list[6143] = 4095;
        list[6141] = 2047;
        list.extend([7, 3, 15]);
        refused(&board, &table, 0, 0x5, &list, 31);
        let reply = take_back(&mut board, &mut table, 0, 0x5, &list[..6144]);
        assert_eq!(reply, moved(2048));
    }
}
