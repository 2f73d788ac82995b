//! Quotas through the binding: document 02, No. 6. Every number is worked out by hand from that text and from
//! document 01, "Board and frame table". The board has four colours and eight frames, so that frames 0 and 4
//! have colour 0, 1 and 5 colour 1, 2 and 6 colour 2, 3 and 7 colour 3. Domain 0 has the words 1 to 4,096 and
//! is granted colours 0 and 1; domain 1 has the words 4,097 to 8,192 and is granted colours 2 and 3.

use juzvanec::*;

fn refused<A>(number: u32) -> Result<A, Refusal> {
    Err(Refusal { number, row: 0 })
}

fn board() -> Board {
    Board::new(4, 8, &[0x3, 0xC])
}

/// The board with this quota of domain 0.
fn with_quota(quota: u32) -> Board {
    let mut board = board();
    board.quotas[0] = quota;
    board
}

/// The reply to the quota that domain 0 asks for, after the board was seen to have it now, and to be the same
/// in every other field; or to be as before.
fn asked(board: &mut Board, table: &[u16], quota: u32) -> Result<u32, Refusal> {
    let mut expected = *board;
    let reply = set_quota(board, table, 0, quota);
    if reply.is_ok() {
        expected.quotas[0] = quota;
    }
    assert_eq!(*board, expected);
    reply
}

#[test]
fn four_thousand_and_ninety_six_at_first() {
    assert_eq!(board().quotas, [4096; 8]);
    for (domain, set) in [(0, 0x3), (1, 0xC)] {
        let told = colours(&board(), &[FREE; 8], domain);
        assert_eq!(told, Ok(Colours { set, quota: 4096 }));
    }
}

/// The guest that filled its colours at start. Without a quota four pages get frames 0, 1, 4 and 5, and of the
/// two that lie outside colour 0 none can move there. With a quota of 2 the third page is refused, and frame 4
/// is left for frame 1 to move to.
#[test]
fn frames_are_left_for_recolouring() {
    let (mut board, mut table) = (board(), [FREE; 8]);
    for (page, frame) in [(9, 0), (1, 1), (2, 4), (3, 5)] {
        let new = fault(&board, &mut table, 0, page);
        assert_eq!(new, Ok(Faulted::New(frame)));
    }
    let moved = recolour(&mut board, &mut table, 0, 0x1, &mut [0; 24]);
    assert_eq!(moved, refused(12));

    let (mut board, mut table) = (self::board(), [FREE; 8]);
    assert_eq!(set_quota(&mut board, &table, 0, 2), Ok(2));
    assert_eq!(fault(&board, &mut table, 0, 9), Ok(Faulted::New(0)));
    assert_eq!(fault(&board, &mut table, 0, 1), Ok(Faulted::New(1)));
    assert_eq!(fault(&board, &mut table, 0, 2), refused(28));
    let mut moves = [7; 4];
    assert_eq!(recolour(&mut board, &mut table, 0, 0x1, &mut moves), Ok(1));
    assert_eq!(moves, [1, 1, 4, 7]);
    assert_eq!(table, [10, 0, 0, 0, 2, 0, 0, 0]);
    let told = colours(&board, &table, 0);
    assert_eq!(told, Ok(Colours { set: 0x1, quota: 2 }));
    // a release makes room for a page
    assert_eq!(fault(&board, &mut table, 0, 2), refused(28));
    assert_eq!(release(&board, &mut table, 0, 9), Ok(0));
    assert_eq!(fault(&board, &mut table, 0, 2), Ok(Faulted::New(0)));
}

/// One guest's quota is nothing to the other, which gets what it got before.
#[test]
fn each_has_its_own() {
    let (mut board, mut table) = (board(), [FREE; 8]);
    assert_eq!(set_quota(&mut board, &table, 1, 1), Ok(1));
    assert_eq!(board.quotas, [4096, 1, 4096, 4096, 4096, 4096, 4096, 4096]);
    assert_eq!(fault(&board, &mut table, 1, 0), Ok(Faulted::New(2)));
    assert_eq!(fault(&board, &mut table, 1, 1), refused(28));
    for (page, frame) in [(9, 0), (1, 1), (2, 4), (3, 5)] {
        let new = fault(&board, &mut table, 0, page);
        assert_eq!(new, Ok(Faulted::New(frame)));
    }
    // below the four that domain 0 holds, which domain 1's one frame has no part in
    assert_eq!(asked(&mut board, &table, 3), refused(27));
    assert_eq!(asked(&mut board, &table, 4), Ok(4));
}

#[test]
fn what_may_be_asked_for() {
    let (mut board, table) = (board(), [FREE; 8]);
    // more than there are frames, the least, the same again, and the most
    for quota in [9, 1, 1, 4096] {
        assert_eq!(asked(&mut board, &table, quota), Ok(quota));
    }
    for quota in [0, 4097, 1 << 16, (1 << 16) + 1, u32::MAX] {
        assert_eq!(asked(&mut board, &table, quota), refused(27));
    }
}

/// Three frames of domain 0: for its first page in frame 0, and for its last in frames 5 and 7, the latter
/// outside its grant. The words of domain 1, of nobody and of the hypervisor are not its own.
const HELD: [u16; 8] = [1, 0, 4097, 32_769, 0, 4096, RESERVED, 4096];

#[test]
fn every_frame_with_its_word_counts() {
    let mut board = board();
    for quota in [0, 1, 2] {
        assert_eq!(asked(&mut board, &HELD, quota), refused(27));
    }
    assert_eq!(asked(&mut board, &HELD, 3), Ok(3));
    // a smaller set is active, and the frames outside it count
    board.active[0] = 0x1;
    assert_eq!(asked(&mut board, &HELD, 2), refused(27));
    assert_eq!(asked(&mut board, &HELD, 3), Ok(3));
    for (quota, expected) in [
        (1, refused(28)),
        (2, refused(28)),
        (3, refused(28)),
        // of the active colour 0, frame 4 alone is free
        (4, Ok(Faulted::New(4))),
    ] {
        board.quotas[0] = quota;
        assert_eq!(fault(&board, &mut HELD.clone(), 0, 7), expected);
    }
}

/// More is held than the quota: a page that is mapped is answered old, and the quota call goes by what is held.
#[test]
fn held_above_the_quota() {
    let mut board = with_quota(1);
    let mut table = HELD;
    assert_eq!(fault(&board, &mut table, 0, 0), Ok(Faulted::Old(0)));
    assert_eq!(fault(&board, &mut table, 0, 4095), Ok(Faulted::Old(5)));
    assert_eq!(look(&board, &table, 0, 4095), Ok(Looked::Mapped(5)));
    assert_eq!(fault(&board, &mut table, 0, 1), refused(28));
    assert_eq!(table, HELD);
    // neither the old quota nor one more is enough
    assert_eq!(asked(&mut board, &table, 1), refused(27));
    assert_eq!(asked(&mut board, &table, 2), refused(27));
    assert_eq!(asked(&mut board, &table, 3), Ok(3));
}

/// Recolouring goes on with more held than the quota. Frames 5 and 7 lie outside colour 0, and frame 4 alone is
/// free there; with frame 0 released there are two, of which frame 5 gets the lower.
#[test]
fn recolouring_ignores_quotas() {
    let mut board = with_quota(1);
    let mut table = HELD;
    let mut moves = [7; 6];
    let few = recolour(&mut board, &mut table, 0, 0x1, &mut moves);
    assert_eq!(few, refused(12));
    assert_eq!(release(&board, &mut table, 0, 0), Ok(0));
    let moved = recolour(&mut board, &mut table, 0, 0x1, &mut moves);
    assert_eq!(moved, Ok(2));
    assert_eq!(moves, [4095, 5, 0, 4095, 7, 4]);
    assert_eq!(table, [4096, 0, 4097, 32_769, 4096, 0, RESERVED, 0]);
    assert_eq!((board.active[0], board.quotas[0]), (0x1, 1));
}

/// At the quota no frame is looked for, and a page that is none is refused before.
#[test]
fn a_full_quota_goes_behind_10_and_before_12() {
    let full = [10, 2, 0, 0, RESERVED, RESERVED, 0, 0];
    for (quota, number) in [(2, 28), (3, 12)] {
        let board = with_quota(quota);
        assert_eq!(fault(&board, &mut full.clone(), 0, 5), refused(number));
        assert_eq!(fault(&board, &mut full.clone(), 0, 4096), refused(10));
        assert_eq!(fault(&board, &mut full.clone(), 0, 1), Ok(Faulted::Old(1)));
    }
}

/// All frames that there can be, held for one page: the quota at first is reached, though nothing is free.
#[test]
fn the_quota_at_first_can_be_reached() {
    let mut board = Board::new(1, 4096, &[1]);
    let mut table = vec![1; 4096];
    assert_eq!(fault(&board, &mut table, 0, 1), refused(28));
    assert_eq!(fault(&board, &mut table, 0, 0), Ok(Faulted::Old(0)));
    assert_eq!(set_quota(&mut board, &table, 0, 4095), refused(27));
    assert_eq!(set_quota(&mut board, &table, 0, 4096), Ok(4096));
    table[4095] = FREE;
    assert_eq!(set_quota(&mut board, &table, 0, 4095), Ok(4095));
    assert_eq!(fault(&board, &mut table, 0, 1), refused(28));
    assert_eq!(set_quota(&mut board, &table, 0, 4096), Ok(4096));
    assert_eq!(fault(&board, &mut table, 0, 1), Ok(Faulted::New(4095)));
}

/// A board quota is tested of every domain below the count, behind 7 and before 8, and of no other.
#[test]
fn quotas_of_the_board() {
    let table = [FREE; 8];
    for quota in [0, 4097, 1 << 16, u32::MAX] {
        for domain in 0..8 {
            let mut board = board();
            board.quotas[domain] = quota;
            // domain 2 is not below the count
            let expected = if domain < 2 { 26 } else { 8 };
            let told = colours(&board, &table, 2);
            assert_eq!(told, refused(expected));
            let mut after = board;
            assert_eq!(set_quota(&mut after, &table, 2, 0), refused(expected));
            assert_eq!(after, board);
            // nor is its quota changed where another's is set
            let set = set_quota(&mut after, &table, 1, 5);
            assert_eq!(set, if domain < 2 { refused(26) } else { Ok(5) });
            assert_eq!(after.quotas[domain], quota);
            board.active[1] = 0x1;
            let row = 1;
            assert_eq!(colours(&board, &table, 0), Err(Refusal { number: 7, row }));
        }
    }
}

/// The quota asked for is tested last.
#[test]
fn order_of_the_quota_call() {
    let mut board = board();
    let mut short = |domain| set_quota(&mut board, &[FREE; 7], domain, 0);
    assert_eq!(short(0), refused(3));
    let mut call = |domain| set_quota(&mut board, &[FREE; 8], domain, 0);
    assert_eq!(call(2), refused(8));
    assert_eq!(call(u32::MAX), refused(8));
    assert_eq!(call(0), refused(27));
}

/// Admission has no frames to count, and takes a board whatever its quotas.
#[test]
fn admission_takes_any_quotas() {
    let mut board = board();
    board.quotas = [0, 4097, u32::MAX, 0, 0, 0, 0, 0];
    let vcpus = [0, 0, 100, 100];
    let mut tasks = vec![0, 100, 100, 0x1];
    tasks.extend([10; 16]);
    let (mut times, mut rounds) = ([0; 2], [0; 2]);
    let admitted = admit_plan(&board, 0, &vcpus, &tasks, &mut times, &mut rounds);
    assert_eq!(admitted, Ok(()));
    assert_eq!((times, rounds), ([100, 10], [2, 2]));
}
