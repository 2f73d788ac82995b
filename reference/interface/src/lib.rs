//! The calls of the C interface as the comparison at scale and the benchmark make them, and all unsafe code of both.
//! A call gives back every number that the library does, without a judgement. Each is set to rubbish before the call,
//! so that one left unwritten shows. The calls are inlined, so that the benchmark measures little but the library.

use juzvanec::{raw, Board, TEXT_BYTES};

const RUBBISH: u32 = 0xA5A5_5A5A;

/// The number and row of a reply, and the other numbers in the order of the header: 0 where a function has fewer.
#[derive(Clone, Copy, Debug, PartialEq, Eq)]
pub struct Raw {
    pub number: u32,
    pub row: u32,
    pub values: [u32; 2],
}

#[inline(always)]
fn reply(number: u32, row: u32, values: [u32; 2]) -> Raw {
    Raw {
        number,
        row,
        values,
    }
}

#[inline(always)]
pub fn cache_colours(bytes: u64, ways: u64) -> Raw {
    let [mut colours, mut row] = [RUBBISH; 2];
    // SAFETY: two words of this function's own are lent.
    let number = unsafe { raw::juzvanec_cache_colours(bytes, ways, &mut colours, &mut row) };
    reply(number, row, [colours, 0])
}

#[inline(always)]
pub fn layout(colours: u32, set: u32, index: u32) -> Raw {
    let [mut page, mut row] = [RUBBISH; 2];
    // SAFETY: two words of this function's own are lent.
    let number = unsafe { raw::juzvanec_layout(colours, set, index, &mut page, &mut row) };
    reply(number, row, [page, 0])
}

#[inline(always)]
pub fn bleach(colours: u32, set: u32, page: u32) -> Raw {
    let [mut index, mut row] = [RUBBISH; 2];
    // SAFETY: two words of this function's own are lent.
    let number = unsafe { raw::juzvanec_bleach(colours, set, page, &mut index, &mut row) };
    reply(number, row, [index, 0])
}

/// The number of the archive's interface.
#[inline(always)]
pub fn number() -> u32 {
    // SAFETY: nothing is lent.
    unsafe { raw::juzvanec_interface() }
}

#[inline(always)]
pub fn look(board: &Board, table: &[u16], domain: u32, page: u32) -> Raw {
    let [mut mapped, mut frame, mut row] = [RUBBISH; 3];
    // SAFETY: board and table are valid for their lengths; three words of this function's own are lent.
    let number = unsafe {
        raw::juzvanec_look(
            board,
            table.as_ptr(),
            table.len(),
            domain,
            page,
            &mut mapped,
            &mut frame,
            &mut row,
        )
    };
    reply(number, row, [mapped, frame])
}

#[inline(always)]
pub fn fault(board: &Board, table: &mut [u16], domain: u32, page: u32) -> Raw {
    let [mut is_new, mut frame, mut row] = [RUBBISH; 3];
    // SAFETY: board and table are valid for their lengths; three words of this function's own are lent.
    let number = unsafe {
        raw::juzvanec_fault(
            board,
            table.as_mut_ptr(),
            table.len(),
            domain,
            page,
            &mut is_new,
            &mut frame,
            &mut row,
        )
    };
    reply(number, row, [is_new, frame])
}

#[inline(always)]
pub fn release(board: &Board, table: &mut [u16], domain: u32, page: u32) -> Raw {
    let [mut frame, mut row] = [RUBBISH; 2];
    // SAFETY: board and table are valid for their lengths; two words of this function's own are lent.
    let number = unsafe {
        raw::juzvanec_release(
            board,
            table.as_mut_ptr(),
            table.len(),
            domain,
            page,
            &mut frame,
            &mut row,
        )
    };
    reply(number, row, [frame, 0])
}

#[inline(always)]
pub fn colours(board: &Board, table: &[u16], domain: u32) -> Raw {
    let [mut set, mut quota, mut row] = [RUBBISH; 3];
    // SAFETY: board and table are valid for their lengths; three words of this function's own are lent.
    let number = unsafe {
        raw::juzvanec_colours(
            board,
            table.as_ptr(),
            table.len(),
            domain,
            &mut set,
            &mut quota,
            &mut row,
        )
    };
    reply(number, row, [set, quota])
}

#[inline(always)]
pub fn set_quota(board: &mut Board, table: &[u16], domain: u32, quota: u32) -> Raw {
    let [mut answer, mut row] = [RUBBISH; 2];
    // SAFETY: board and table are valid for their lengths and lie apart; two words of this function's own
    // are lent.
    let number = unsafe {
        raw::juzvanec_set_quota(
            board,
            table.as_ptr(),
            table.len(),
            domain,
            quota,
            &mut answer,
            &mut row,
        )
    };
    reply(number, row, [answer, 0])
}

#[inline(always)]
pub fn recolour(
    board: &mut Board,
    table: &mut [u16],
    domain: u32,
    set: u32,
    moves: &mut [u16],
) -> Raw {
    let [mut count, mut row] = [RUBBISH; 2];
    // SAFETY: board, table and move list are valid for their lengths and lie apart; two words of this
    // function's own are lent.
    let number = unsafe {
        raw::juzvanec_recolour(
            board,
            table.as_mut_ptr(),
            table.len(),
            domain,
            set,
            moves.as_mut_ptr(),
            moves.len(),
            &mut count,
            &mut row,
        )
    };
    reply(number, row, [count, 0])
}

/// The library is to read the list alone. It is lent to be written, so that a library may be wrong and write it.
#[inline(always)]
pub fn take_back(
    board: &mut Board,
    table: &mut [u16],
    domain: u32,
    set: u32,
    moves: &mut [u16],
) -> Raw {
    let [mut count, mut row] = [RUBBISH; 2];
    // SAFETY: board, table and move list are valid for their lengths and lie apart, and the list may be written,
    // too; two words of this function's own are lent.
    let number = unsafe {
        raw::juzvanec_take_back(
            board,
            table.as_mut_ptr(),
            table.len(),
            domain,
            set,
            moves.as_mut_ptr(),
            moves.len(),
            &mut count,
            &mut row,
        )
    };
    reply(number, row, [count, 0])
}

/// The start and length of the part.
#[inline(always)]
pub fn part(tasks: &[u32], vcpu: u32) -> (usize, usize) {
    let [mut start, mut length] = [RUBBISH as usize; 2];
    // SAFETY: the list is valid for its length; two words of this function's own are lent.
    unsafe { raw::juzvanec_part(tasks.as_ptr(), tasks.len(), vcpu, &mut start, &mut length) };
    (start, length)
}

#[inline(always)]
pub fn admit_plan(
    board: &Board,
    reload: u32,
    vcpus: &[u32],
    tasks: &[u32],
    times: &mut [u32],
    rounds: &mut [u32],
) -> Raw {
    let mut row = RUBBISH;
    // SAFETY: board and lists are valid for their lengths, and the lists of times and of rounds lie apart; a
    // word of this function's own is lent.
    let number = unsafe {
        raw::juzvanec_admit_plan(
            board,
            reload,
            vcpus.as_ptr(),
            vcpus.len(),
            tasks.as_ptr(),
            tasks.len(),
            times.as_mut_ptr(),
            times.len(),
            rounds.as_mut_ptr(),
            rounds.len(),
            &mut row,
        )
    };
    reply(number, row, [0; 2])
}

/// The values are the text's length and the words that the plan took.
#[inline(always)]
pub fn admit(input: &[u8], text: &mut [u8]) -> Raw {
    let text: &mut [u8; TEXT_BYTES] = text.try_into().expect("so many bytes");
    let [mut length, mut words, mut row] = [RUBBISH; 3];
    // SAFETY: the input is valid for its length and the text has 1,024 bytes, apart from it; three words
    // of this function's own are lent.
    let number = unsafe {
        raw::juzvanec_admit(
            input.as_ptr(),
            input.len(),
            text,
            &mut length,
            &mut words,
            &mut row,
        )
    };
    reply(number, row, [length, words])
}
