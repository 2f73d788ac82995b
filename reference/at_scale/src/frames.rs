//! Scripts of the frame calls on sound and damaged boards and on all kinds of table content. After each call
//! the reply, the table, the board and the move list are compared, word by word, and where it is refused they
//! are as before.

use interface::Raw;
use reference::model::frames::{Answer, Board, Call, State, FREE, PAGES};
use reference::model::reply::Reply;
use reference::random::boards::{
    accepted, any_domain, any_page, any_set, any_word, empty_table, limit, part_of, spoil,
    NO_QUOTAS,
};
use reference::random::lists::any_take_back;
use reference::random::Random;

use crate::lent::{Lent, LentBoard};
use crate::tally::{unlike, Tally};
use crate::{quotas, taking_back};

const GUARD: u16 = 0x5AA5;

fn expected(reply: Reply<Answer>) -> Raw {
    let (number, row, values) = match reply {
        Reply::Refused { number, row } => (number, row, [0, 0]),
        Reply::Answer(answer) => (
            0,
            0,
            match answer {
                Answer::Mapped(frame) | Answer::New(frame) => [1, frame as u32],
                Answer::Unmapped => [0, 0],
                Answer::Old(frame) => [0, frame as u32],
                Answer::Freed(frame) => [frame as u32, 0],
                Answer::Active { set, quota } => [set, quota],
                Answer::Moved(count) => [count as u32, 0],
                Answer::Quota(quota) => [quota, 0],
            },
        ),
    };
    Raw {
        number,
        row,
        values,
    }
}

fn kind(call: &Call) -> &'static str {
    match call {
        Call::Look { .. } => "look",
        Call::Fault { .. } => "fault",
        Call::Release { .. } => "release",
        Call::Colours { .. } => "colours",
        Call::Recolour { .. } => "recolour",
        Call::SetQuota { .. } => "set quota",
        Call::TakeBack { .. } => "take back",
    }
}

/// The call through the interface.
fn run(call: &Call, board: &mut juzvanec::Board, table: &mut [u16], moves: &mut [u16]) -> Raw {
    match *call {
        Call::Look { domain, page } => interface::look(board, table, domain, page),
        Call::Fault { domain, page } => interface::fault(board, table, domain, page),
        Call::Release { domain, page } => interface::release(board, table, domain, page),
        Call::Colours { domain } => interface::colours(board, table, domain),
        Call::Recolour { domain, set, .. } => interface::recolour(board, table, domain, set, moves),
        Call::SetQuota { domain, quota } => interface::set_quota(board, table, domain, quota),
        Call::TakeBack { domain, set, .. } => {
            interface::take_back(board, table, domain, set, moves)
        }
    }
}

/// Runs the call on both sides and compares all that either leaves.
pub fn compare(state: &mut State, call: &Call, tally: &mut Tally) {
    let before = state.clone();
    let mut board = LentBoard::new(&state.board);
    let mut table = Lent::new(&state.table, GUARD);
    let list: Vec<u16> = match call {
        Call::TakeBack { list, .. } => list.clone(),
        _ => (0..call.room())
            .map(|place| place as u16 ^ 0xC3C3)
            .collect(),
    };
    let mut moves = Lent::new(&list, GUARD);
    let found = run(call, &mut board.board, table.list_mut(), moves.list_mut());
    let mut after = list.clone();
    let reply = state.call(call, &mut after);
    let model = expected(reply);
    let is_refused = model.number != 0;
    assert!(!is_refused || (&*state, &after) == (&before, &list));
    let differences = [
        unlike("reply", found, model),
        board.difference(&state.board),
        table.difference("table", &state.table),
        moves.difference("moves", &after),
    ];
    let differences = differences.into_iter().flatten();
    tally.count(kind(call), model.number, &(&before, call), differences);
    quotas::count(&before, call, reply, tally);
    taking_back::count(&before, call, reply, tally);
}

/// A number of frames, seldom a large one.
pub fn any_frames(random: &mut Random, n: u64) -> u32 {
    let frames = match random.below(400) {
        0 => 1000 + random.below(3097),
        1 => random.pick(&[4095, 4096]),
        2..=60 => 1 + random.below(n),
        61..=120 => 41 + random.below(120),
        _ => 1 + random.below(40),
    };
    frames as u32
}

fn any_board(random: &mut Random) -> Board {
    let n = random.pick(&[1, 2, 4, 8, 8, 16, 16]);
    let domains = 1 + random.below(n.min(8)) as u32;
    let frames = any_frames(random, n);
    accepted(random, n as u32, frames, domains)
}

/// Puts faults of 2 to 7 and 26 into the board, one or several.
fn damage(random: &mut Random, board: &mut Board) {
    for _ in 0..1 + random.below(2) {
        let any = random.any_size() as u32;
        let domains = board.domains.clamp(1, 8);
        let row = random.below(domains.into()) as u32;
        match random.below(10) {
            0 => board.colours = random.pick(&[0, 3, 12, 17, 32, 1 << 16, u32::MAX, any]),
            1 => board.frames = random.pick(&[0, 4097, board.frames.wrapping_add(1), any]),
            2 => board.domains = random.pick(&[0, 9, 16, 256, 1 << 31, any]),
            3 if row + 1 < domains => spoil_6(random, board, domains, row),
            4 => board.grants[row as usize] = random.pick(&[0, any, 1 << 16, u32::MAX]),
            5 => board.active[row as usize] = random.pick(&[0, any, 1 << 31]),
            6 | 7 => board.quotas[row as usize] = random.pick(&NO_QUOTAS),
            _ if (1..=16).contains(&board.colours) => {
                let number = random.pick(&[5, 7]);
                if board.grants[row as usize] != u32::MAX {
                    spoil(random, board, number, row);
                }
            }
            _ => {}
        }
    }
}

fn spoil_6(random: &mut Random, board: &mut Board, domains: u32, row: u32) {
    let later = row + 1 + random.below((domains - 1 - row).into()) as u32;
    board.grants[later as usize] |= part_of(random, board.grants[row as usize]);
}

/// Empty tables, and tables of any words with few or many free frames.
fn any_table(random: &mut Random, board: &Board, pages: &[u32]) -> Vec<u16> {
    if random.below(3) == 0 {
        return empty_table(random, board.frames);
    }
    let free = random.pick(&[2, 15, 30, 50, 70, 90]);
    (0..board.frames)
        .map(|_| match random.below(100) < free {
            true => FREE,
            false => any_word(random, board.domains, pages),
        })
        .collect()
}

/// How many moves the recolouring makes with a list that is long enough.
fn moves(state: &State, domain: u32, set: u32) -> Option<usize> {
    let room = 3 * state.table.len();
    let call = Call::Recolour { domain, set, room };
    match state.clone().call(&call, &mut vec![0; room]) {
        Reply::Answer(Answer::Moved(count)) => Some(count),
        _ => None,
    }
}

/// A recolouring with a move list that is just long enough.
pub fn recolour_to(state: &State, domain: u32, set: u32) -> Call {
    let room = 3 * moves(state, domain, set).unwrap_or(0);
    Call::Recolour { domain, set, room }
}

/// A recolouring with a move list that is just long enough, too short or too long.
fn any_recolour(random: &mut Random, state: &State, domain: u32) -> Call {
    let grant = *state.board.grants.get(domain as usize).unwrap_or(&0xFFFF);
    let set = any_set(random, grant);
    let room = 3 * state.table.len();
    let room = match moves(state, domain, set) {
        Some(count) => {
            let exact = 3 * count;
            let short = exact.saturating_sub(1 + random.below(4) as usize);
            let long = exact + random.below(12) as usize;
            random.pick(&[exact, exact, exact, short, short, long, room, 0])
        }
        None => random.pick(&[0, 3, 12, room]),
    };
    Call::Recolour { domain, set, room }
}

pub fn any_call(random: &mut Random, state: &State, pages: &[u32]) -> Call {
    let domain = any_domain(random, state.board.domains);
    let page = any_page(random, pages);
    match random.below(20) {
        0..=2 => Call::Look { domain, page },
        3..=8 => Call::Fault { domain, page },
        9..=11 => Call::Release { domain, page },
        12 => Call::Colours { domain },
        13 | 14 => quotas::any_set_quota(random, state, domain),
        15 | 16 => any_take_back(random, state, domain),
        _ => any_recolour(random, state, domain),
    }
}

/// A board, a table and some calls on them; a damaged board or a table of another length refuses all.
pub fn script(random: &mut Random, tally: &mut Tally) {
    let mut board = any_board(random);
    let mut pages = vec![0, PAGES - 1];
    pages.extend((0..2 + random.below(9)).map(|_| random.below(PAGES.into()) as u32));
    let mut table = any_table(random, &board, &pages);
    limit(random, &mut board, &table);
    let mut calls = 20 + random.below(41);
    if random.below(3) == 0 {
        calls = 8;
        match random.below(5) {
            0 => table.truncate(random.below(table.len() as u64) as usize),
            1 => table.extend([FREE; 3]),
            _ => damage(random, &mut board),
        }
    }
    let mut state = State { board, table };
    for _ in 0..calls {
        let call = any_call(random, &state, &pages);
        compare(&mut state, &call, tally);
    }
}
