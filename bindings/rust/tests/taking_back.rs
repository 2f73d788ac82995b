//! Taking a recolouring back through the binding: document 02, No. 10. Every number is worked out by hand from that
//! text and from document 01, "Board and frame table". The board has four colours and twelve frames, so that frames
//! 0, 4 and 8 have colour 0, and 1, 5 and 9 colour 1. Domain 0 has the words 1 to 4,096 and is granted these two
//! colours; domain 1 has the words 4,097 to 8,192 and is granted colours 2 and 3.

use juzvanec::*;

fn refused<A>(number: u32) -> Result<A, Refusal> {
    Err(Refusal { number, row: 0 })
}

fn board() -> Board {
    Board::new(4, 12, &[0x3, 0xC])
}

/// Domain 0 has page 9 in frame 0, page 1 in frame 1 and page 2 in frame 4, and frame 8 is reserved.
const BEFORE: [u16; 12] = [10, 2, 4097, 0, 3, 0, 0, 0, RESERVED, 0, 0, 0];
/// It recolours to colour 1: frame 0 goes to frame 5, and frame 4 to frame 9.
const AFTER: [u16; 12] = [0, 2, 4097, 0, 0, 10, 0, 0, RESERVED, 3, 0, 0];
const MOVES: [u16; 6] = [2, 4, 9, 9, 0, 5];
const FORMER: u32 = 0x3;

/// The board and the table after that recolouring.
fn recoloured() -> (Board, [u16; 12]) {
    let (mut board, mut table, mut moves) = (board(), BEFORE, [7; 7]);
    assert_eq!(recolour(&mut board, &mut table, 0, 0x2, &mut moves), Ok(2));
    assert_eq!((table, moves[..6] == MOVES, moves[6]), (AFTER, true, 7));
    (board, table)
}

/// The reply to domain 0, after the list was seen to be as before, and the board to have the set now and the same
/// in every other field; or both board and table to be as before.
fn taken(board: &mut Board, table: &mut [u16], set: u32, moves: &[u16]) -> Result<usize, Refusal> {
    let (mut expected, before, list) = (*board, table.to_vec(), moves.to_vec());
    let reply = take_back(board, table, 0, set, moves);
    match reply {
        Ok(_) => expected.active[0] = set,
        Err(_) => assert_eq!(table, before),
    }
    assert_eq!((*board, moves), (expected, &list[..]));
    reply
}

/// The reply to this list after the recolouring.
fn after_recolouring(set: u32, moves: &[u16]) -> Result<usize, Refusal> {
    let (mut board, mut table) = recoloured();
    taken(&mut board, &mut table, set, moves)
}

/// What the domain is told: its set and quota, and a look of every page.
fn told(board: &Board, table: &[u16], domain: u32) -> (Colours, Vec<Looked>) {
    let map = (0..=LAST_PAGE).map(|page| look(board, table, domain, page).expect("a page"));
    (
        colours(board, table, domain).expect("a domain"),
        map.collect(),
    )
}

/// The words of the domain, and 0 where another's stand.
fn own_words(table: &[u16], domain: u16) -> Vec<u16> {
    let own = |word: &u16| *word != FREE && (word - 1) / 4096 == domain;
    table
        .iter()
        .map(|word| if own(word) { *word } else { 0 })
        .collect()
}

/// The history of document 02: a smaller set was tried, timed, and the former state wanted again.
#[test]
fn the_former_state_again() {
    let mut board = board();
    let mut table = [FREE; 12];
    table[8] = RESERVED;
    assert_eq!(fault(&board, &mut table, 1, 0), Ok(Faulted::New(2)));
    for (page, frame) in [(9, 0), (1, 1), (2, 4)] {
        let new = fault(&board, &mut table, 0, page);
        assert_eq!(new, Ok(Faulted::New(frame)));
    }
    assert_eq!(table, BEFORE);
    assert_eq!(set_quota(&mut board, &table, 0, 3), Ok(3));
    let before = told(&board, &table, 0);
    assert_eq!(before.0, Colours { set: 0x3, quota: 3 });

    let mut moves = [0; 3 * 12];
    assert_eq!(recolour(&mut board, &mut table, 0, 0x2, &mut moves), Ok(2));
    assert_eq!(table, AFTER);
    assert_ne!(told(&board, &table, 0), before);

    // the other guest faults pages in, recolours, takes that back, sets its quota and recolours again
    for (page, frame) in [(1, 3), (2, 6), (3, 7)] {
        let new = fault(&board, &mut table, 1, page);
        assert_eq!(new, Ok(Faulted::New(frame)));
    }
    assert_eq!(release(&board, &mut table, 1, 1), Ok(3));
    let mut others = [0; 6];
    assert_eq!(recolour(&mut board, &mut table, 1, 0x4, &mut others), Ok(1));
    assert_eq!(others, [3, 7, 10, 0, 0, 0]);
    assert_eq!(
        take_back(&mut board, &mut table, 1, 0xC, &others[..3]),
        Ok(1)
    );
    assert_eq!(set_quota(&mut board, &table, 1, 4), Ok(4));
    assert_eq!(recolour(&mut board, &mut table, 1, 0x4, &mut others), Ok(1));
    // and tries to take back what is not its own
    let stolen = take_back(&mut board, &mut table, 1, 0xC, &MOVES);
    assert_eq!(stolen, refused(31));

    let other = told(&board, &table, 1);
    let triples = &moves[..6];
    assert_eq!(taken(&mut board, &mut table, before.0.set, triples), Ok(2));
    assert_eq!(told(&board, &table, 0), before);
    assert_eq!(own_words(&table, 0), own_words(&BEFORE, 0));
    assert_eq!(told(&board, &table, 1), other);
    assert_eq!(table, [10, 2, 4097, 0, 3, 0, 4099, 0, RESERVED, 0, 4100, 0]);
    // what is back is not moved twice
    assert_eq!(taken(&mut board, &mut table, 0x3, triples), refused(31));
}

/// Three frames of colour 0 go to colour 1, and the triples back in each of their orders.
#[test]
fn any_order_serves() {
    let mut start = Board::new(4, 16, &[0x3, 0xC]);
    start.active[0] = 0x1;
    let mut full = [FREE; 16];
    for (page, frame) in [(30, 0), (20, 4), (10, 8)] {
        let new = fault(&start, &mut full, 0, page);
        assert_eq!(new, Ok(Faulted::New(frame)));
    }
    let triples = [[10, 8, 9], [20, 4, 5], [30, 0, 1]];
    for order in [
        [0, 1, 2],
        [0, 2, 1],
        [1, 0, 2],
        [1, 2, 0],
        [2, 0, 1],
        [2, 1, 0],
    ] {
        let (mut board, mut table, mut moves) = (start, full, [0; 9]);
        let moved = recolour(&mut board, &mut table, 0, 0x2, &mut moves);
        assert_eq!((moved, moves[..] == triples.concat()), (Ok(3), true));
        let list = order.map(|at| triples[at]).concat();
        assert_eq!(taken(&mut board, &mut table, 0x1, &list), Ok(3));
        assert_eq!((table, board), (full, start));
    }
}

/// The pages of colour 0 stay where they are, and only the set was smaller.
#[test]
fn nothing_moved() {
    let (mut board, mut table) = (board(), BEFORE);
    table[1] = FREE;
    let before = (board, table);
    assert_eq!(recolour(&mut board, &mut table, 0, 0x1, &mut []), Ok(0));
    assert_eq!(board.active[0], 0x1);
    assert_eq!(taken(&mut board, &mut table, 0x3, &[]), Ok(0));
    assert_eq!((board, table), before);
    // a domain without frames
    assert_eq!(take_back(&mut board, &mut [FREE; 12], 1, 0x8, &[]), Ok(0));
    assert_eq!(board.active, [0x3, 0x8, 0, 0, 0, 0, 0, 0]);
}

#[test]
fn no_multiple_of_three_words() {
    let longer = [&MOVES[..], &[9, 0]].concat();
    for words in [1, 2, 4, 5, 7, 8] {
        assert_eq!(after_recolouring(FORMER, &longer[..words]), refused(31));
    }
    assert_eq!(after_recolouring(FORMER, &longer[..6]), Ok(2));
    assert_eq!(after_recolouring(FORMER, &longer[..3]), Ok(1));
}

/// Past the last page come the words of the next domain, of the hypervisor and, in 16 bits, the first ones again.
#[test]
fn a_page_above_4095() {
    // frame 2 has the word of domain 1 for page 0, frame 8 is reserved, and frame 4 is free
    for moves in [[4096, 0, 2], [65_534, 0, 8], [65_535, 0, 4]] {
        assert_eq!(after_recolouring(FORMER, &moves), refused(31));
    }
    // for domain 1, frame 1 with domain 0's word for page 1
    let (mut board, mut table) = recoloured();
    let reply = take_back(&mut board, &mut table, 1, 0xC, &[61_441, 3, 1]);
    assert_eq!((reply, table), (refused(31), AFTER));
    // the last page itself
    table[5] = 4096;
    let last = [4095, 0, 5];
    assert_eq!(taken(&mut board, &mut table, FORMER, &last), Ok(1));
    assert_eq!((table[0], table[5]), (4096, FREE));
}

#[test]
fn a_frame_at_or_above_the_count() {
    for frame in [12, 13, 4095, 4096, 65_535] {
        for at in [1, 2, 4, 5] {
            let mut moves = MOVES;
            moves[at] = frame;
            assert_eq!(after_recolouring(FORMER, &moves), refused(31));
        }
    }
    // the words behind the table would do, an old frame's and a new one's
    for (word, moves) in [(FREE, [2, 12, 9]), (3, [2, 4, 12])] {
        let (mut board, table) = recoloured();
        let mut longer = [word; 16];
        longer[..12].copy_from_slice(&table);
        let lent = &mut longer[..12];
        assert_eq!(taken(&mut board, lent, FORMER, &moves), refused(31));
        assert_eq!(longer[12..], [word; 4]);
    }
    // the last one itself, of colour 3
    let (mut board, mut table) = recoloured();
    let last = take_back(&mut board, &mut table, 1, 0xC, &[0, 11, 2]);
    assert_eq!((last, table[2], table[11]), (Ok(1), FREE, 4097));
}

#[test]
fn a_frame_twice() {
    let lists: [&[u16]; 7] = [
        // an old frame, and a new one
        &[2, 4, 9, 9, 4, 5],
        &[2, 4, 9, 2, 0, 9],
        // old and new in one triple and in two
        &[2, 9, 9],
        &[2, 4, 4],
        &[2, 4, 9, 9, 9, 5],
        // a triple, at once and with another between
        &[2, 4, 9, 2, 4, 9],
        &[2, 4, 9, 9, 0, 5, 2, 4, 9],
    ];
    for moves in lists {
        assert_eq!(after_recolouring(FORMER, moves), refused(31));
    }
    // more triples than there are frames: of the words, in 16 bits counted, six
    let long = MOVES.repeat(32_769);
    assert_eq!(after_recolouring(FORMER, &long), refused(31));
    // one page in two frames is none of this: a table that did not start empty
    let (mut board, mut table) = recoloured();
    table[5] = 3;
    let twice = [2, 4, 9, 2, 0, 5];
    assert_eq!(taken(&mut board, &mut table, FORMER, &twice), Ok(2));
    assert_eq!(table, [3, 2, 4097, 0, 3, 0, 0, 0, RESERVED, 0, 0, 0]);
}

#[test]
fn a_new_frame_without_the_word() {
    let lists: [&[u16]; 7] = [
        // another page, a free frame, and the pages of two frames exchanged
        &[3, 4, 9, 9, 0, 5],
        &[2, 4, 10],
        &[9, 4, 9, 2, 0, 5],
        // domain 1's word for the page, and a reserved frame
        &[0, 4, 2],
        &[2, 4, 8],
        // old and new exchanged
        &[2, 9, 4, 9, 5, 0],
        // the first is right, the last is not
        &[2, 4, 9, 8, 0, 5],
    ];
    for moves in lists {
        assert_eq!(after_recolouring(FORMER, moves), refused(31));
    }
    // the guest released the page meanwhile, and had it back in the same frame
    let (mut board, mut table) = recoloured();
    assert_eq!(release(&board, &mut table, 0, 9), Ok(5));
    assert_eq!(taken(&mut board, &mut table, FORMER, &MOVES), refused(31));
    assert_eq!(fault(&board, &mut table, 0, 9), Ok(Faulted::New(5)));
    assert_eq!(taken(&mut board, &mut table, FORMER, &MOVES), Ok(2));
    assert_eq!(table, BEFORE);
}

#[test]
fn an_old_frame_that_is_not_free_in_the_set() {
    // held by the domain and by another, and reserved
    for old in [1, 2, 8] {
        assert_eq!(after_recolouring(FORMER, &[2, old, 9]), refused(31));
    }
    // of nobody, of the domain, of the other, reserved: each in a frame of the set
    for word in [32_769, 1, 10, 4097, RESERVED] {
        let (mut board, mut table) = recoloured();
        table[0] = word;
        assert_eq!(taken(&mut board, &mut table, FORMER, &MOVES), refused(31));
    }
    // free, and of a colour outside the grant, or inside it and outside the set
    assert_eq!(after_recolouring(FORMER, &[2, 3, 9]), refused(31));
    assert_eq!(after_recolouring(0x2, &[2, 4, 9]), refused(31));
    // the new frame may have any colour: frame 9 has one of the former set
    assert_eq!(after_recolouring(0x3, &[2, 4, 9]), Ok(1));
}

#[test]
fn a_frame_left_outside() {
    // frame 1, which did not move
    assert_eq!(after_recolouring(0x1, &MOVES), refused(32));
    // all three
    assert_eq!(after_recolouring(0x1, &[]), refused(32));

    // colour 0 was the former set, and frame 1 free
    let (mut board, mut table) = (board(), BEFORE);
    (board.active[0], table[1]) = (0x1, FREE);
    let before = (board, table);
    let mut moves = [0; 6];
    assert_eq!(recolour(&mut board, &mut table, 0, 0x2, &mut moves), Ok(2));
    // frame 0 goes to frame 1, frame 4 to frame 5
    assert_eq!(moves, [2, 4, 5, 9, 0, 1]);
    // a triple that is missing
    assert_eq!(taken(&mut board, &mut table, 0x1, &moves[..3]), refused(32));
    assert_eq!(taken(&mut board, &mut table, 0x1, &moves[3..]), refused(32));
    // a page that came in since, until it is released
    assert_eq!(fault(&board, &mut table, 0, 7), Ok(Faulted::New(9)));
    assert_eq!(taken(&mut board, &mut table, 0x1, &moves), refused(32));
    assert_eq!(release(&board, &mut table, 0, 7), Ok(9));
    assert_eq!(taken(&mut board, &mut table, 0x1, &moves), Ok(2));
    assert_eq!((board, table), before);
}

/// A table that did not start empty: the first and the last word of the domain in frames outside its grant, which no
/// set has; those of the other, of nobody and reserved ones may lie anywhere.
#[test]
fn every_frame_with_its_word_counts() {
    for word in [1, 3, 4096] {
        for frame in [3, 11] {
            let (mut board, mut table) = recoloured();
            table[frame] = word;
            assert_eq!(taken(&mut board, &mut table, FORMER, &MOVES), refused(32));
        }
    }
    for word in [4097, 8192, 32_768, 32_769, RESERVED] {
        let (mut board, mut table) = recoloured();
        (table[3], table[10], table[11]) = (word, word, word);
        assert_eq!(taken(&mut board, &mut table, FORMER, &MOVES), Ok(2));
    }
    // a frame outside the grant that is taken back lies outside no more
    let (mut board, mut table) = recoloured();
    (table[9], table[11]) = (FREE, 3);
    let moves = [2, 4, 11, 9, 0, 5];
    assert_eq!(taken(&mut board, &mut table, FORMER, &moves), Ok(2));
    assert_eq!(table, BEFORE);
}

/// 9 goes before 31, and 31 before 32. Boards and callers are tested before, with every other call's.
#[test]
fn order_of_the_call() {
    for set in [0, 0x4, 0x7, 0x10, u32::MAX] {
        assert_eq!(after_recolouring(set, &[0]), refused(9));
    }
    // frame 1 lies outside colour 0
    assert_eq!(after_recolouring(0x1, &[0]), refused(31));
    assert_eq!(after_recolouring(0x1, &[2, 4, 9, 9, 0, 4]), refused(31));
    assert_eq!(after_recolouring(0x1, &[2, 4, 9]), refused(32));
}

/// Less than what is held, the least and the most: the frames held stay as many.
#[test]
fn quotas_play_no_part() {
    for quota in [1, 2, 3, 4096] {
        let (mut board, mut table) = recoloured();
        board.quotas[0] = quota;
        assert_eq!(taken(&mut board, &mut table, FORMER, &MOVES), Ok(2));
        assert_eq!((table, board.quotas[0]), (BEFORE, quota));
    }
}

/// As many moves as there can be: every second frame of the largest board.
#[test]
fn half_of_all_frames() {
    let mut board = Board::new(2, 4096, &[0x3]);
    board.active[0] = 0x1;
    let mut table = vec![FREE; 4096];
    for (frame, word) in table.iter_mut().enumerate().step_by(2) {
        *word = 4096 - frame as u16;
    }
    let before = (board, table.clone());
    let mut moves = [7; 3 * 2048];
    let moved = recolour(&mut board, &mut table, 0, 0x2, &mut moves);
    assert_eq!(moved, Ok(2048));
    // the lowest page is in the last of these frames
    assert_eq!(moves[..3], [1, 4094, 4095]);
    let short = taken(&mut board, &mut table, 0x1, &moves[3..]);
    assert_eq!(short, refused(32));
    assert_eq!(taken(&mut board, &mut table, 0x1, &moves), Ok(2048));
    assert_eq!((board, table), before);
}
