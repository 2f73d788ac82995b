//! The functions, and all unsafe code of this package: each hands its references on to the C interface.
//! References are valid, aligned and not null, empty slices too, and no two of them overlap where one is
//! for writing; that is all that the interface asks.

use core::slice;

use crate::{raw, Board, Colours, Faulted, Looked, Refusal, Task, Vcpu, Verdict};
use crate::{INTERFACE, TASK_WORDS, TEXT_BYTES, VCPU_WORDS};

/// The answer, unless the number is a refusal's.
#[inline]
fn reply<A>(number: u32, row: u32, answer: A) -> Result<A, Refusal> {
    match number {
        0 => Ok(answer),
        _ => Err(Refusal { number, row }),
    }
}

/// Panics where the archive is not this package's, so that no function of it is called with arguments
/// that it understands otherwise. It costs a call of two instructions.
#[inline]
fn see_interface() {
    // SAFETY: nothing is lent.
    let found = unsafe { raw::juzvanec_interface() };
    if found != INTERFACE {
        other_interface(found);
    }
}

#[cold]
fn other_interface(found: u32) -> ! {
    panic!("libjuzvanec.a has interface {found}, and this package is for {INTERFACE}");
}

/// The words of VCPU rows.
#[inline]
pub(crate) fn vcpu_words(rows: &[Vcpu]) -> &[u32] {
    // SAFETY: a row is so many words without gaps and aligned as they are, which its module asserts.
    unsafe { slice::from_raw_parts(rows.as_ptr().cast(), VCPU_WORDS * rows.len()) }
}

/// The words of task rows.
#[inline]
pub(crate) fn task_words(rows: &[Task]) -> &[u32] {
    // SAFETY: as above.
    unsafe { slice::from_raw_parts(rows.as_ptr().cast(), TASK_WORDS * rows.len()) }
}

/// The number N of colours of a cache of so many bytes in so many ways. Refusal 2.
///
/// ```
/// assert_eq!(juzvanec::cache_colours(1_048_576, 16), Ok(16));
/// assert_eq!(juzvanec::cache_colours(2_097_152, 16).unwrap_err().number, 2);
/// ```
#[inline]
pub fn cache_colours(bytes: u64, ways: u64) -> Result<u32, Refusal> {
    see_interface();
    let (mut colours, mut row) = (0, 0);
    // SAFETY: two words of this function's own are lent.
    let number = unsafe { raw::juzvanec_cache_colours(bytes, ways, &mut colours, &mut row) };
    reply(number, row, colours)
}

/// Coloured layout: the page of an index under a colour set of N colours. Refusals 2, 9, 10.
///
/// ```
/// assert_eq!(juzvanec::layout(16, 0x00F0, 6), Ok(22));
/// ```
#[inline]
pub fn layout(colours: u32, set: u32, index: u32) -> Result<u32, Refusal> {
    see_interface();
    let (mut page, mut row) = (0, 0);
    // SAFETY: two words of this function's own are lent.
    let number = unsafe { raw::juzvanec_layout(colours, set, index, &mut page, &mut row) };
    reply(number, row, page)
}

/// Bleaching: the index of a page under a colour set of N colours. Refusals 2, 9, 10, 11.
///
/// ```
/// assert_eq!(juzvanec::bleach(16, 0x00F0, 22), Ok(6));
/// assert_eq!(juzvanec::bleach(16, 0x0005, 17).unwrap_err().number, 11);
/// ```
#[inline]
pub fn bleach(colours: u32, set: u32, page: u32) -> Result<u32, Refusal> {
    see_interface();
    let (mut index, mut row) = (0, 0);
    // SAFETY: two words of this function's own are lent.
    let number = unsafe { raw::juzvanec_bleach(colours, set, page, &mut index, &mut row) };
    reply(number, row, index)
}

/// The lowest frame that the domain holds for the page, or unmapped. Refusals 2 to 7, 26, 8, 10.
///
/// ```
/// use juzvanec::{look, Board, Looked};
///
/// let board = Board::new(4, 3, &[0x3, 0xC]);
/// assert_eq!(look(&board, &[0, 10, 10], 0, 9), Ok(Looked::Mapped(1)));
/// assert_eq!(look(&board, &[0, 10, 10], 1, 9), Ok(Looked::Unmapped));
/// ```
#[inline]
pub fn look(board: &Board, table: &[u16], domain: u32, page: u32) -> Result<Looked, Refusal> {
    see_interface();
    let (mut mapped, mut frame, mut row) = (0, 0, 0);
    // SAFETY: the board has 27 words and the table as many as it says; three words of this function's
    // own are lent for writing.
    let number = unsafe {
        raw::juzvanec_look(
            board,
            table.as_ptr(),
            table.len(),
            domain,
            page,
            &mut mapped,
            &mut frame,
            &mut row,
        )
    };
    let looked = match mapped {
        0 => Looked::Unmapped,
        _ => Looked::Mapped(frame as usize),
    };
    reply(number, row, looked)
}

/// If the page is mapped, its lowest frame, whatever the quota; else, if the domain holds fewer frames than
/// its quota, a free frame with a colour in its active set, which gets the page's word: of the colours with a
/// free frame that in which the domain holds the fewest frames, the lowest on a tie, and of it the lowest free
/// frame. Refusals 2 to 7, 26, 8, 10, 28, 12.
///
/// ```
/// use juzvanec::{fault, Board, Faulted};
///
/// let board = Board::new(4, 3, &[0x3, 0xC]);
/// let mut table = [0; 3];
/// assert_eq!(fault(&board, &mut table, 1, 0), Ok(Faulted::New(2)));
/// assert_eq!(table, [0, 0, 4097]);
/// assert_eq!(fault(&board, &mut table, 1, 1).unwrap_err().number, 12);
/// ```
#[inline]
pub fn fault(board: &Board, table: &mut [u16], domain: u32, page: u32) -> Result<Faulted, Refusal> {
    see_interface();
    let (mut is_new, mut frame, mut row) = (0, 0, 0);
    // SAFETY: the board has 27 words and the table as many as it says; the table and three words of this
    // function's own are lent for writing.
    let number = unsafe {
        raw::juzvanec_fault(
            board,
            table.as_mut_ptr(),
            table.len(),
            domain,
            page,
            &mut is_new,
            &mut frame,
            &mut row,
        )
    };
    let faulted = match is_new {
        0 => Faulted::Old(frame as usize),
        _ => Faulted::New(frame as usize),
    };
    reply(number, row, faulted)
}

/// The lowest frame that the domain holds for the page becomes free; the answer is its number. Refusals 2
/// to 7, 26, 8, 10, 14.
///
/// ```
/// use juzvanec::{release, Board};
///
/// let board = Board::new(4, 3, &[0x3, 0xC]);
/// let mut table = [0, 10, 10];
/// assert_eq!(release(&board, &mut table, 0, 9), Ok(1));
/// assert_eq!(table, [0, 0, 10]);
/// ```
#[inline]
pub fn release(board: &Board, table: &mut [u16], domain: u32, page: u32) -> Result<usize, Refusal> {
    see_interface();
    let (mut frame, mut row) = (0, 0);
    // SAFETY: the board has 27 words and the table as many as it says; the table and two words of this
    // function's own are lent for writing.
    let number = unsafe {
        raw::juzvanec_release(
            board,
            table.as_mut_ptr(),
            table.len(),
            domain,
            page,
            &mut frame,
            &mut row,
        )
    };
    reply(number, row, frame as usize)
}

/// The domain's active set and its quota. Refusals 2 to 7, 26, 8.
///
/// ```
/// use juzvanec::{colours, Board, Colours};
///
/// let board = Board::new(4, 3, &[0x3, 0xC]);
/// assert_eq!(colours(&board, &[0; 3], 1), Ok(Colours { set: 0xC, quota: 4096 }));
/// ```
#[inline]
pub fn colours(board: &Board, table: &[u16], domain: u32) -> Result<Colours, Refusal> {
    see_interface();
    let (mut set, mut quota, mut row) = (0, 0, 0);
    // SAFETY: the board has 27 words and the table as many as it says; three words of this function's own
    // are lent for writing.
    let number = unsafe {
        raw::juzvanec_colours(
            board,
            table.as_ptr(),
            table.len(),
            domain,
            &mut set,
            &mut quota,
            &mut row,
        )
    };
    reply(number, row, Colours { set, quota })
}

/// The domain's quota in the board becomes this one, and no other field of the board changes; the answer is
/// the quota. It may be the old one, and may exceed the frames that there are, but is not below the frames that
/// the domain holds: all with one of its page words, whatever their colour. Refusals 2 to 7, 26, 8, 27.
///
/// ```
/// use juzvanec::{fault, set_quota, Board, Faulted};
///
/// let mut board = Board::new(4, 8, &[0x3, 0xC]);
/// // domain 0 has page 9 in frame 0
/// let mut table = [10, 0, 0, 0, 0, 0, 0, 0];
/// assert_eq!(set_quota(&mut board, &table, 0, 1), Ok(1));
/// assert_eq!(board.quotas[0], 1);
/// // a page that has its frame keeps it, and no other gets one
/// assert_eq!(fault(&board, &mut table, 0, 9), Ok(Faulted::Old(0)));
/// assert_eq!(fault(&board, &mut table, 0, 5).unwrap_err().number, 28);
/// assert_eq!(set_quota(&mut board, &table, 0, 0).unwrap_err().number, 27);
/// ```
#[inline]
pub fn set_quota(
    board: &mut Board,
    table: &[u16],
    domain: u32,
    quota: u32,
) -> Result<u32, Refusal> {
    see_interface();
    let (mut answer, mut row) = (0, 0);
    // SAFETY: the board has 27 words and the table as many as it says; the board and two words of this
    // function's own are lent for writing.
    let number = unsafe {
        raw::juzvanec_set_quota(
            board,
            table.as_ptr(),
            table.len(),
            domain,
            quota,
            &mut answer,
            &mut row,
        )
    };
    reply(number, row, answer)
}

/// Makes the set active: the domain's frames outside it, ascending, go one by one to free frames inside
/// it, each chosen as [`fault`] chooses, with the frames that were moved before counted. The answer is the
/// count of moves; the move list gets a page, an old and a new frame for each, by ascending page and, for
/// equal pages, by ascending old frame, and its rest does not change. A quota stops no recolouring, since the
/// frames held stay as many. [`take_back`] undoes it. Refusals 2 to 7, 26, 8, 9, 12, 13.
///
/// ```
/// use juzvanec::{recolour, Board};
///
/// let mut board = Board::new(4, 8, &[0x3, 0xC]);
/// // domain 0 has page 2 in frame 0 and page 1 in frame 4
/// let mut table = [3, 0, 4097, 0, 2, 0, 0, 0];
/// let mut moves = [0; 12];
/// let count = recolour(&mut board, &mut table, 0, 0x2, &mut moves).unwrap();
/// for triple in moves[..3 * count].chunks_exact(3) {
///     println!("page {} goes from frame {} to frame {}", triple[0], triple[1], triple[2]);
/// }
/// assert_eq!(moves[..3 * count], [1, 4, 5, 2, 0, 1]);
/// assert_eq!(board.active[0], 0x2);
/// ```
#[inline]
pub fn recolour(
    board: &mut Board,
    table: &mut [u16],
    domain: u32,
    set: u32,
    moves: &mut [u16],
) -> Result<usize, Refusal> {
    see_interface();
    let (mut count, mut row) = (0, 0);
    // SAFETY: the board has 27 words, and the table and the move list as many as they say; all three and
    // two words of this function's own are lent for writing.
    let number = unsafe {
        raw::juzvanec_recolour(
            board,
            table.as_mut_ptr(),
            table.len(),
            domain,
            set,
            moves.as_mut_ptr(),
            moves.len(),
            &mut count,
            &mut row,
        )
    };
    reply(number, row, count as usize)
}

/// Takes a recolouring back: the page of each triple goes from its new frame back to its old one, the new frame
/// becomes free, and the set, the former one, is active. The answer is the count of moves.
///
/// The list is just the triples that [`recolour`] wrote, `moves[..3 * count]`. It is only read, and may stand in
/// any order; where nothing moved, it is empty. The former set is what [`colours`] answered before the
/// recolouring, which the caller keeps. With nothing but other domains' calls since the recolouring, and from an
/// empty table on, the call answers, and each page of the domain has the frame that it had before. Quotas play no
/// part.
///
/// The call knows the list and the set that it is given, and no recolouring: it takes every list and set that fit. A
/// list that lacks some of the triples leaves their pages where they are, so the count is to be compared with the
/// recolouring's. Refusals 2 to 7, 26, 8, 9, 31, 32.
///
/// ```
/// use juzvanec::{colours, recolour, take_back, Board};
///
/// let mut board = Board::new(4, 8, &[0x3, 0xC]);
/// // domain 0 has page 2 in frame 0 and page 1 in frame 4
/// let mut table = [3, 0, 4097, 0, 2, 0, 0, 0];
/// let former = colours(&board, &table, 0).unwrap().set;
/// let mut moves = [0; 12];
/// let count = recolour(&mut board, &mut table, 0, 0x2, &mut moves).unwrap();
/// assert_eq!(table, [0, 3, 4097, 0, 0, 2, 0, 0]);
/// // timed, and the former set was better
/// let triples = &moves[..3 * count];
/// assert_eq!(take_back(&mut board, &mut table, 0, former, triples), Ok(2));
/// assert_eq!(table, [3, 0, 4097, 0, 2, 0, 0, 0]);
/// assert_eq!(board.active[0], 0x3);
/// // they are back already
/// let again = take_back(&mut board, &mut table, 0, former, triples);
/// assert_eq!(again.unwrap_err().number, 31);
/// ```
#[inline]
pub fn take_back(
    board: &mut Board,
    table: &mut [u16],
    domain: u32,
    set: u32,
    moves: &[u16],
) -> Result<usize, Refusal> {
    see_interface();
    let (mut count, mut row) = (0, 0);
    // SAFETY: the board has 27 words, and the table and the move list as many as they say; board, table and
    // two words of this function's own are lent for writing.
    let number = unsafe {
        raw::juzvanec_take_back(
            board,
            table.as_mut_ptr(),
            table.len(),
            domain,
            set,
            moves.as_ptr(),
            moves.len(),
            &mut count,
            &mut row,
        )
    };
    reply(number, row, count as usize)
}

/// The rows of one VCPU, as that part of the caller's task words: from its first row up to the next row
/// of another. Words short of a row belong to none.
///
/// ```
/// let mut tasks = [0; 60];
/// tasks[20..40].fill(1);
/// assert_eq!(juzvanec::part(&tasks, 1), [1; 20]);
/// assert!(juzvanec::part(&tasks, 2).is_empty());
/// ```
#[inline]
pub fn part(tasks: &[u32], vcpu: u32) -> &[u32] {
    see_interface();
    let (mut start, mut length) = (0, 0);
    // SAFETY: the list has as many words as it says; two words of this function's own are lent for
    // writing.
    unsafe { raw::juzvanec_part(tasks.as_ptr(), tasks.len(), vcpu, &mut start, &mut length) };
    &tasks[start..][..length]
}

/// Admits a plan: the times of the VCPUs and then of the tasks, in row order, go to the front of the list
/// of times, and in the same order the rounds in which each was found to the front of the list of rounds;
/// the rest of both does not change. The reload is microseconds for each colour: an arrival of a task is
/// charged for every colour that it holds and that the task in question, or one ranked between the two on
/// its VCPU, holds too.
///
/// A round starts at t, 1 at first, works out the need in t and takes the first microsecond whose supply
/// covers it, where the next round starts; the round in which this is t itself, or past the deadline (a
/// VCPU's is its period), ends the search and counts too. There are at most 2 rounds plus, for each
/// earlier row of the VCPU (for a VCPU, of the core), the deadline over that row's period, rounded up,
/// less 1; this holds of searches that end late, too.
///
/// Refusals 2 to 7, 15 to 22; 16 also where either of the two lists is shorter than the rows. The board's
/// quotas are not looked at.
///
/// ```
/// use juzvanec::{admit_plan, Board, Task, Vcpu};
///
/// let board = Board::new(16, 64, &[0xFF]);
/// let vcpus = [Vcpu { core: 0, domain: 0, period: 10_000, budget: 10_000 }];
/// let task = |period, set| Task { vcpu: 0, period, deadline: period, set, costs: [1000; 16] };
/// let tasks = [task(3000, 0x1), task(10_000, 0x1), task(10_000, 0x2)];
/// let (vcpus, tasks) = (Vcpu::words(&vcpus), Task::words(&tasks));
/// let (mut times, mut rounds) = ([0; 4], [0; 4]);
/// assert_eq!(admit_plan(&board, 100, vcpus, tasks, &mut times, &mut rounds), Ok(()));
/// // the third waits while the second reloads what the first took from it
/// assert_eq!(times, [10_000, 1000, 2100, 4200]);
/// // its need is 3,100 in 1 and, with a second arrival of the first, 4,200 in 3,100 and in 4,200
/// assert_eq!(rounds, [2, 2, 2, 3]);
/// ```
#[inline]
pub fn admit_plan(
    board: &Board,
    reload: u32,
    vcpus: &[u32],
    tasks: &[u32],
    times: &mut [u32],
    rounds: &mut [u32],
) -> Result<(), Refusal> {
    see_interface();
    let mut row = 0;
    // SAFETY: the board has 27 words and the lists as many as they say; the lists of times and of rounds
    // and a word of this function's own are lent for writing.
    let number = unsafe {
        raw::juzvanec_admit_plan(
            board,
            reload,
            vcpus.as_ptr(),
            vcpus.len(),
            tasks.as_ptr(),
            tasks.len(),
            times.as_mut_ptr(),
            times.len(),
            rounds.as_mut_ptr(),
            rounds.len(),
            &mut row,
        )
    };
    reply(number, row, ())
}

/// The program `admit`, from the bytes that it reads to the text that it prints. Refusals 1 to 6, 15 to
/// 22, in the verdict.
///
/// ```
/// let verdict = juzvanec::admit(b"no plan");
/// assert_eq!(verdict.text(), b"refused 1 0\n");
/// assert_eq!(verdict.admitted().unwrap_err().number, 1);
/// ```
pub fn admit(input: &[u8]) -> Verdict {
    see_interface();
    let mut text = [0; TEXT_BYTES];
    let (mut length, mut words, mut row) = (0, 0, 0);
    // SAFETY: the input has as many bytes as it says and the text 1,024; the text and three words of this
    // function's own are lent for writing.
    let number = unsafe {
        raw::juzvanec_admit(
            input.as_ptr(),
            input.len(),
            &mut text,
            &mut length,
            &mut words,
            &mut row,
        )
    };
    Verdict {
        text,
        length: length as usize,
        words: words as usize,
        refusal: reply(number, row, ()).err(),
    }
}
