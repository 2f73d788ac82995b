//! The frame calls against the separate tool's model, on random boards and crowded tables of all lengths, with quotas
//! about as many as the frames held, and lists that are right or nearly so. Both ways of recolouring leave the same.

use std::collections::BTreeMap;

use baseline::{
    colours, fault, look, recolour, recolour_by_sort, set_quota, take_back, Board, Faulted, Looked,
    Refusal,
};
use reference::model::frames::{
    frames_held, word, Answer, Call, State, DOMAINS, FREE, PAGES, QUOTA,
};
use reference::model::reply::Reply;
use reference::random::boards::{
    accepted, any_domain, any_page, any_set, asked_quota, crowded_table, limit, NO_QUOTAS,
};
use reference::random::lists::{any_take_back, shuffled};
use reference::random::Random;

fn lent(state: &State) -> Board {
    let board = &state.board;
    Board {
        colours: board.colours,
        frames: board.frames,
        domains: board.domains,
        grants: board.grants,
        active: board.active,
        quotas: board.quotas,
    }
}

/// The call by the baseline, where it has it.
fn run(
    call: &Call,
    board: &mut Board,
    table: &mut [u16],
    moves: &mut [u16],
) -> Option<Result<Answer, Refusal>> {
    match *call {
        Call::Look { domain, page } => {
            let looked = look(board, table, domain, page);
            Some(looked.map(|looked| match looked {
                Looked::Mapped(frame) => Answer::Mapped(frame),
                Looked::Unmapped => Answer::Unmapped,
            }))
        }
        Call::Fault { domain, page } => {
            let faulted = fault(board, table, domain, page);
            Some(faulted.map(|faulted| match faulted {
                Faulted::Old(frame) => Answer::Old(frame),
                Faulted::New(frame) => Answer::New(frame),
            }))
        }
        Call::Recolour { domain, set, .. } => {
            let (mut board_too, mut table_too, mut moves_too) =
                (*board, table.to_vec(), moves.to_vec());
            let count = recolour(board, table, domain, set, moves);
            let by_sort =
                recolour_by_sort(&mut board_too, &mut table_too, domain, set, &mut moves_too);
            assert_eq!(count, by_sort);
            assert_eq!(
                (*board, &*table, &*moves),
                (board_too, &*table_too, &*moves_too)
            );
            Some(count.map(Answer::Moved))
        }
        Call::Colours { domain } => {
            let told = colours(board, table, domain);
            Some(told.map(|(set, quota)| Answer::Active { set, quota }))
        }
        Call::SetQuota { domain, quota } => {
            Some(set_quota(board, table, domain, quota).map(Answer::Quota))
        }
        Call::TakeBack {
            domain,
            set,
            ref list,
        } => Some(take_back(board, table, domain, set, list).map(Answer::Moved)),
        Call::Release { .. } => None,
    }
}

/// How often each refusal came, 0 for an answer.
type Seen = BTreeMap<u32, u32>;

/// Runs the call on both sides, and leaves what the model does.
fn compare(state: &mut State, call: &Call, seen: &mut Seen) {
    let before = state.clone();
    let (mut board, mut table) = (lent(state), state.table.clone());
    let [mut moves, mut model_moves] = [(); 2].map(|()| vec![7; call.room()]);
    let found = run(call, &mut board, &mut table, &mut moves);
    let expected = state.call(call, &mut model_moves);
    let Some(found) = found else {
        return;
    };
    let found = match found {
        Ok(answer) => Reply::Answer(answer),
        Err(Refusal { number, row }) => Reply::Refused { number, row },
    };
    assert_eq!(found, expected, "{before:?} {call:?}");
    assert_eq!(table, state.table, "{before:?} {call:?}");
    assert_eq!(moves, model_moves, "{before:?} {call:?}");
    assert_eq!(board, lent(state), "{before:?} {call:?}");
    let number = match expected {
        Reply::Answer(_) => 0,
        Reply::Refused { number, .. } => number,
    };
    *seen.entry(number).or_default() += 1;
}

fn any_call(random: &mut Random, state: &State, pages: &[u32]) -> Call {
    let domain = any_domain(random, state.board.domains);
    let page = any_page(random, pages);
    let grant = state.board.grants.get(domain as usize).unwrap_or(&1);
    let set = any_set(random, *grant);
    let room = match random.below(6) {
        0 => random.below(30) as usize,
        _ => 3 * state.table.len(),
    };
    let held = frames_held(&state.table, domain);
    let quota = asked_quota(random, &state.board, held, domain);
    match random.below(14) {
        0 => Call::Look { domain, page },
        1 | 2 => Call::Release { domain, page },
        3..=5 => Call::Fault { domain, page },
        6 => Call::Colours { domain },
        7 | 8 => Call::SetQuota { domain, quota },
        9..=11 => any_take_back(random, state, domain),
        _ => Call::Recolour { domain, set, room },
    }
}

fn script(random: &mut Random, frames: u32, seen: &mut Seen) {
    let n = random.pick(&[1, 2, 4, 8, 16]);
    let domains = 1 + random.below(n.min(3)) as u32;
    let mut board = accepted(random, n as u32, frames, domains);
    let most = random.pick(&[1, 8, 60]);
    let pages: Vec<u32> = (0..=random.below(most))
        .map(|_| random.below(PAGES.into()) as u32)
        .collect();
    let table = crowded_table(random, &board, &pages);
    if random.below(3) > 0 {
        limit(random, &mut board, &table);
    }
    if random.below(20) == 0 {
        board.quotas[random.below(8) as usize] = random.pick(&NO_QUOTAS);
    }
    let mut state = State { board, table };
    for _ in 0..16 {
        let call = any_call(random, &state, &pages);
        compare(&mut state, &call, seen);
    }
}

#[test]
fn the_baseline_answers_as_the_model() {
    let mut random = Random::new(2003);
    let mut seen = Seen::new();
    for _ in 0..60 {
        for frames in 1..=80 {
            script(&mut random, frames, &mut seen);
        }
        let frames = random.pick(&[1000, 4081, 4095, 4096]);
        script(&mut random, frames, &mut seen);
    }
    for number in [0, 8, 9, 10, 12, 13, 26, 27, 28, 31, 32] {
        assert!(
            seen.get(&number).is_some_and(|count| *count > 100),
            "{seen:?}"
        );
    }
}

/// Half of the longest table, with lists as long as any that pass and longer.
#[test]
fn the_longest_lists() {
    let mut random = Random::new(2003);
    let mut seen = Seen::new();
    for colours in [2, 4, 8, 16] {
        let mut grants = [0; DOMAINS];
        grants[0] = (1 << colours) - 1;
        let mut board = reference::model::frames::Board {
            colours,
            frames: 4096,
            domains: 1,
            grants,
            active: grants,
            quotas: [QUOTA; DOMAINS],
        };
        let former = grants[0] & 0x5555;
        board.active[0] = former;
        let table = (0..4096)
            .map(|frame| match frame % 2 {
                0 => word(0, 1597 * frame % PAGES) as u16,
                _ => FREE,
            })
            .collect();
        let mut state = State { board, table };
        let (domain, set, room) = (0, grants[0] & !former, 3 * 2048);
        let mut list = vec![0; room];
        state.call(&Call::Recolour { domain, set, room }, &mut list);
        let mut lists = vec![list.clone(); 5];
        lists[0][room - 2] = list[1];
        (lists[1][room - 3], lists[1][room - 1]) = (list[0], list[2]);
        lists[2].extend_from_slice(&list[..3]);
        lists[3].truncate(room - 3);
        lists[4] = shuffled(&mut random, &list);
        for list in lists {
            let set = former;
            compare(&mut state, &Call::TakeBack { domain, set, list }, &mut seen);
        }
    }
    assert_eq!(seen, Seen::from([(0, 4), (31, 12), (32, 4)]));
}
