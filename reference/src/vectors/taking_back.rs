//! Scripts in which takings back show (document 02, No. 10): lists that are right, in any order, and lists that are
//! right but for a word, a triple, a page or a frame; former sets of all kinds; and tables that no history from an
//! empty one leaves. Each wrong reading of the request leaves some of them with other answers, which is seen here, so
//! that the vectors cannot stop telling the readings apart.

use super::frames::{any_recolour, Script, LONGEST_LIST};
use super::quota::{
    active, alike, answered, board, fault, freed, look, moved, new, recolour, release, set_quota,
};
use crate::model::frames::{
    frames_held, word, Answer, Call, DOMAINS, FREE, PAGES, QUOTA, RESERVED,
};
use crate::model::reply::Reply;
use crate::random::boards::{
    accepted, any_domain, any_quota, any_set, asked_quota, crowded_table, empty_table, limit,
    part_of, NO_QUOTAS,
};
use crate::random::lists::{any_take_back, right_list, shuffled, spoil};
use crate::random::Random;
use crate::readings::taking_back::{self, Wrong, WRONG};

/// Given are scripts whose boards 2 to 7 refuse.
pub fn scripts(random: &mut Random, refused: &[Script]) -> Vec<Script> {
    let mut scripts = vec![recorder(), to_other_colours(), strays(), pages()];
    scripts.extend([0, 3, 4095].map(carried_off));
    scripts.extend([2, 3].map(twice));
    scripts.extend([twice_of_any_pages(), words(), wrong_lengths()]);
    scripts.extend(on_refused_boards(random, refused));
    scripts.extend((1..=DOMAINS as u32).map(|domains| spoilt_quota(random, domains)));
    for (number, n) in (0..).zip([1, 2, 4, 8, 16].into_iter().cycle().take(25)) {
        scripts.push(few_frames(random, n, 1 + number));
    }
    for (n, count) in [(2, 8), (4, 16), (8, 16), (16, 12)] {
        scripts.extend((0..count).map(|_| there_and_back(random, n)));
    }
    for (n, count) in [(1, 4), (2, 10), (4, 18), (8, 16), (16, 12)] {
        scripts.extend((0..count).map(|_| crowded(random, n)));
    }
    scripts.push(longest(random));
    scripts
}

fn take_back(domain: u32, set: u32, list: &[u16]) -> Call {
    let list = list.to_vec();
    Call::TakeBack { domain, set, list }
}

/// A recolouring with a list of just its length: what was active before, and the triples; none where it is refused.
fn recoloured(script: &mut Script, domain: u32, set: u32) -> Option<(u32, Vec<u16>)> {
    let former = script.now.board.active[domain as usize];
    let room = 3 * script.moves(domain, set)?;
    let (_, list) = script.listed(recolour(domain, set, room));
    Some((former, list))
}

/// Document 01's recolouring, taken back with other calls between and after lists that are not right.
fn recorder() -> Script {
    let board = board(4, 8, &[(0x3, 0x3), (0xC, 0xC)], &[]);
    let mut script = Script::new(board, vec![FREE; 8]);
    let no = Reply::refused;
    let triple = &[1, 1, 4];
    let calls = [
        (take_back(0, 0x3, &[]), moved(0)),
        (fault(0, 9), new(0)),
        (fault(1, 0), new(2)),
        (fault(0, 1), new(1)),
        (recolour(0, 0x1, 3), moved(1)),
        (fault(1, 1), new(3)),
        (release(1, 0), freed(2)),
        (recolour(1, 0x8, 0), moved(0)),
        (set_quota(1, 1), Reply::Answer(Answer::Quota(1))),
        (fault(1, 2), no(28)),
        (take_back(1, 0xC, triple), no(31)),
        (take_back(2, 0x3, triple), no(8)),
        (take_back(8, 0, &[1]), no(8)),
        (take_back(0, 0, triple), no(9)),
        (take_back(0, 0x7, triple), no(9)),
        (take_back(0, 0x10, &[1]), no(9)),
        (take_back(0, 0x3, &[1, 1]), no(31)),
        (take_back(0, 0x3, &[1, 1, 4, 0]), no(31)),
        (take_back(0, 0x3, &[1, 4, 1]), no(31)),
        (take_back(0, 0x2, triple), no(32)),
        (take_back(0, 0x1, triple), no(31)),
        (take_back(0, 0x3, triple), moved(1)),
        (Call::Colours { domain: 0 }, active(0x3, QUOTA)),
        (look(0, 1), Reply::Answer(Answer::Mapped(1))),
        (look(0, 9), Reply::Answer(Answer::Mapped(0))),
        // it is done
        (take_back(0, 0x3, triple), no(31)),
        (take_back(0, 0x1, &[]), no(32)),
        (take_back(0, 0x2, &[]), no(32)),
        (take_back(0, 0x3, &[]), moved(0)),
        (take_back(1, 0x4, &[]), no(32)),
        (take_back(1, 0xC, &[]), moved(0)),
        (Call::Colours { domain: 1 }, active(0xC, 1)),
    ];
    answered(&mut script, &calls);
    script
}

/// Frames 0, 1, 4 and 5 go to colours that the former set does not have, so that all lie outside it before they are
/// back. With a former set of one colour of the two, or of other colours, it is 31 or 32.
fn to_other_colours() -> Script {
    let board = board(4, 16, &[(0xF, 0x3)], &[]);
    let mut script = Script::new(board, vec![FREE; 16]);
    for page in [7, 3, PAGES - 1, 0] {
        script.call(fault(0, page));
    }
    let (former, list) = recoloured(&mut script, 0, 0xC).expect("there is room");
    assert_eq!(list, [0, 5, 7, 3, 1, 3, 7, 0, 2, 4095, 4, 6]);
    let no = Reply::refused;
    let falling: Vec<u16> = list.rchunks(3).flatten().copied().collect();
    let calls = [
        (take_back(0, 0x3, &[]), no(32)),
        (take_back(0, 0x3, &list[3..]), no(32)),
        (take_back(0, 0x3, &list[..9]), no(32)),
        (take_back(0, 0x1, &list), no(31)),
        (take_back(0, 0xC, &list), no(31)),
        (take_back(0, 0x7, &list[6..]), no(32)),
        // of the colours that are active now, too
        (take_back(0, 0xF, &list[..6]), moved(2)),
        (recolour(0, 0xC, 6), moved(2)),
        (take_back(0, former, &falling), moved(4)),
        (Call::Colours { domain: 0 }, active(0x3, QUOTA)),
        (look(0, 0), Reply::Answer(Answer::Mapped(5))),
        // a triple that no recolouring has written
        (take_back(0, 0x3, &[0, 12, 5]), moved(1)),
        (take_back(0, 0xF, &[0, 15, 12, 7, 14, 0]), moved(2)),
        (take_back(0, 0xF, &[]), moved(0)),
        (Call::Colours { domain: 0 }, active(0xF, QUOTA)),
    ];
    answered(&mut script, &calls);
    script
}

/// Domain 0 holds page 5 in the frames 0 and 6, of which the second is in a colour of nobody's, and page 6 in frame 3,
/// in a colour of domain 1. Frame 2 is reserved, and frame 1 and 4 free. Domain 1 holds frame 7 for page 5.
fn strays() -> Script {
    let board = board(4, 10, &[(0x3, 0x1), (0x8, 0x8)], &[2, 1]);
    let table = vec![6, 0, RESERVED, 7, 0, RESERVED, 6, 4102, 0, 32_769];
    let mut script = Script::new(board, table);
    let no = Reply::refused;
    let calls = [
        (take_back(0, 0x3, &[]), no(32)),
        (take_back(0, 0x3, &[5, 1, 6]), no(32)),
        (take_back(0, 0x3, &[6, 1, 3]), no(32)),
        (take_back(0, 0x3, &[5, 1, 0, 6, 4, 3]), no(32)),
        // held by the other, by itself, reserved, outside its grant, held by nobody
        (take_back(0, 0x3, &[5, 7, 6, 6, 1, 3]), no(31)),
        (take_back(0, 0x3, &[5, 0, 6, 6, 1, 3]), no(31)),
        (take_back(0, 0x3, &[5, 5, 6, 6, 1, 3]), no(31)),
        (take_back(0, 0x3, &[5, 2, 6, 6, 1, 3]), no(31)),
        (take_back(0, 0x3, &[5, 9, 6, 6, 1, 3]), no(31)),
        (take_back(0, 0x3, &[5, 1, 7, 6, 4, 3]), no(31)),
        (take_back(0, 0x1, &[5, 4, 6, 6, 8, 3]), moved(2)),
        (take_back(0, 0x3, &[5, 1, 4]), moved(1)),
        (take_back(1, 0x8, &[5, 3, 7]), moved(1)),
        (take_back(0, 0x2, &[5, 5, 0]), no(31)),
        (Call::Colours { domain: 0 }, active(0x3, 2)),
    ];
    answered(&mut script, &calls);
    script
}

/// The last page goes back; pages that are none do not, though frames have the words that they would make.
fn pages() -> Script {
    let board = board(4, 16, &[(0x3, 0x3), (0xC, 0xC)], &[]);
    let mut script = Script::new(board, vec![FREE; 16]);
    for (domain, page) in [(0, PAGES - 1), (0, 0), (1, 0), (1, 5), (1, PAGES - 1)] {
        script.call(fault(domain, page));
    }
    let (_, list) = recoloured(&mut script, 0, 0x2).expect("there is room");
    assert_eq!(list, [4095, 0, 5]);
    let no = Reply::refused;
    let calls = [
        (take_back(0, 0x3, &[4096, 0, 5]), no(31)),
        // domain 1's frames
        (take_back(0, 0x3, &[4096, 0, 2]), no(31)),
        (take_back(0, 0x3, &[4096 + 5, 0, 3]), no(31)),
        (take_back(0, 0x3, &[4096 + 4095, 0, 6]), no(31)),
        (take_back(1, 0xC, &[61_440, 7, 1]), no(31)),
        (take_back(1, 0xC, &[65_535, 7, 5]), no(31)),
        // the word of a free frame
        (take_back(0, 0x3, &[65_535, 0, 8]), no(31)),
        (take_back(1, 0xC, &[61_439, 7, 8]), no(31)),
        (take_back(0, 0x3, &[4095 + 8192, 0, 5]), no(31)),
        (take_back(0, 0x3, &[65_535, 0, 5]), no(31)),
        (take_back(0, 0x3, &[4094, 0, 5]), no(31)),
        (take_back(0, 0x3, &list), moved(1)),
    ];
    answered(&mut script, &calls);
    script
}

/// Each of eight domains holds a frame for the page and asks for that of each other domain, by the page that makes its
/// word, and that is 4,096 for page 0 of the next.
fn carried_off(page: u32) -> Script {
    let sets: Vec<(u32, u32)> = (0..8).map(|domain| (1 << domain, 1 << domain)).collect();
    let board = board(8, 24, &sets, &[]);
    let mut script = Script::new(board, vec![FREE; 24]);
    for domain in 0..8 {
        script.call(fault(domain, page));
    }
    for domain in 0..8 {
        let list = |page: u32, new: u32| [page as u16, 8 + domain as u16, new as u16];
        for other in (0..8).filter(|other| *other != domain) {
            let page = PAGES * (16 + other - domain) + page;
            // those before have gone on
            let new = other + if other < domain { 8 } else { 0 };
            let held = u32::from(script.now.table[new as usize]);
            assert_eq!(held, (1 + PAGES * domain + page) % (1 << 16));
            let call = take_back(domain, 1 << domain, &list(page, new));
            assert_eq!(script.call(call), Reply::refused(31));
        }
        let call = take_back(domain, 1 << domain, &list(page, domain));
        assert_eq!(script.call(call), moved(1));
    }
    script
}

/// A frame in every two places of a list, where all triples are of one page, so that no word gives it away.
fn twice(triples: usize) -> Script {
    let board = board(4, 16, &[(0xF, 0x3)], &[]);
    let mut table = vec![FREE; 16];
    let held = &[0, 1, 4][..triples];
    for frame in held {
        table[*frame] = word(0, 5) as u16;
    }
    let mut script = Script::new(board, table);
    let list: Vec<u16> = held
        .iter()
        .flat_map(|frame| [5, *frame as u16 + 2, *frame as u16])
        .collect();
    for set in [0xF, 0xC] {
        let places = || (0..list.len()).filter(|place| place % 3 > 0);
        for (from, to) in places().flat_map(|from| places().map(move |to| (from, to))) {
            let mut list = list.clone();
            list[to] = list[from];
            if from != to {
                let reply = script.call(take_back(0, set, &list));
                assert_eq!(reply, Reply::refused(31));
            }
        }
    }
    assert_eq!(script.call(take_back(0, 0xC, &list)), moved(triples));
    script
}

/// The same with pages of their own: two new frames are the same with their pages.
fn twice_of_any_pages() -> Script {
    let board = board(2, 12, &[(0x3, 0x3)], &[]);
    let table = vec![1, 0, 2, 0, 3, 0, 4, 0, 0, 0, 0, 0];
    let mut script = Script::new(board, table);
    let list = [0, 1, 0, 1, 3, 2, 2, 5, 4, 3, 7, 6];
    for (from, to) in (0..4).flat_map(|from| (0..4).map(move |to| (from, to))) {
        let (mut news, mut olds, mut chain) = (list, list, list);
        news[3 * to] = list[3 * from];
        news[3 * to + 2] = list[3 * from + 2];
        olds[3 * to + 1] = list[3 * from + 1];
        // to a frame that another leaves: of this colour, it is in the set as well
        chain[3 * to + 1] = list[3 * from + 2];
        if from != to {
            for list in [news, olds, chain] {
                let reply = script.call(take_back(0, 0x3, &list));
                assert_eq!(reply, Reply::refused(31));
            }
        }
    }
    // as if made one after the other
    for list in [[0, 1, 0, 0, 3, 1], [1, 3, 2, 0, 2, 0]] {
        assert_eq!(script.call(take_back(0, 0x3, &list)), Reply::refused(31));
    }
    assert_eq!(script.call(take_back(0, 0x2, &list)), moved(4));
    script
}

/// The words of a right list in other orders than by triples, and lists of other lengths.
fn words() -> Script {
    let board = board(4, 24, &[(0xF, 0xF)], &[]);
    let mut script = Script::new(board, vec![FREE; 24]);
    for page in [12, 4, 100, 7, 2] {
        script.call(fault(0, page));
    }
    let (former, list) = recoloured(&mut script, 0, 0x8).expect("there is room");
    assert_eq!(list.len(), 12);
    let no = Reply::refused(31);
    for turn in 1..list.len() {
        let mut turned = list.clone();
        turned.rotate_left(turn);
        let mut swapped = list.clone();
        swapped.swap(turn - 1, turn);
        if turn % 3 != 0 {
            assert_eq!(script.call(take_back(0, former, &turned)), no);
        }
        for list in [&swapped, &list[turn..], &list[..turn]] {
            let call = take_back(0, former, list);
            // some of the triples would do, since the former set holds the colour that is active
            if script.now.clone().call(&call, &mut []) == no {
                script.call(call);
            }
        }
    }
    for more in [&[0][..], &[0, 0], &[0, 0, 0], &[65_535; 3], &[4, 1, 2, 3]] {
        let long = [&list, more].concat();
        assert_eq!(script.call(take_back(0, former, &long)), no);
    }
    let mut turned = list.clone();
    turned.rotate_left(6);
    assert_eq!(script.call(take_back(0, former, &turned)), moved(4));
    script
}

/// A table of another length than F: 3, whatever the list.
fn wrong_lengths() -> Script {
    let board = board(2, 6, &[(0x3, 0x2)], &[]);
    let mut script = Script::new(board, vec![FREE, 1, FREE, FREE, FREE, FREE, FREE]);
    for list in [&[0, 0, 1][..], &[], &[7]] {
        let reply = script.call(take_back(0, 0x1, list));
        assert_eq!(reply, Reply::refused(3));
    }
    script
}

/// Boards that 2 to 7 refuse, with any quotas: a taking back is refused as the other calls are.
fn on_refused_boards(random: &mut Random, refused: &[Script]) -> Vec<Script> {
    let short = refused
        .iter()
        .filter(|script| script.start.table.len() < 100);
    let mut scripts = Vec::new();
    for Script { start, calls, .. } in short {
        let expected = start.clone().call(&calls[0], &mut [0; 30]);
        let mut board = start.board.clone();
        for quota in &mut board.quotas {
            let none = random.pick(&NO_QUOTAS);
            *quota = random.pick(&[QUOTA, 1, none]);
        }
        let mut script = Script::new(board, start.table.clone());
        let domain = any_domain(random, start.board.domains);
        let set = any_set(random, start.board.grants[0]);
        let list = random.pick(&[&[][..], &[1], &[0, 1, 2], &[65_535; 6]]);
        for call in [
            take_back(0, start.board.grants[0], &[]),
            take_back(domain, set, list),
        ] {
            assert_eq!(script.call(call), expected);
        }
        scripts.push(script);
    }
    scripts
}

/// A domain's quota is none, which refuses the right list of another domain; and what is tested after it, too.
fn spoilt_quota(random: &mut Random, domains: u32) -> Script {
    let n = domains.next_power_of_two().max(2);
    let mut board = accepted(random, n, 3 * n, domains);
    let domain = random.below(domains.into()) as u32;
    let grant = board.grants[domain as usize];
    let own = crate::model::cache::colours(grant)[0];
    let mut table = vec![FREE; 3 * n as usize];
    table[own as usize] = word(domain, 8) as u16;
    board.active[domain as usize] = grant;
    for beyond in domains as usize..DOMAINS {
        board.quotas[beyond] = random.pick(&NO_QUOTAS);
    }
    let right = take_back(domain, grant, &[8, (own + n) as u16, own as u16]);
    let reply = Script::new(board.clone(), table.clone()).call(right.clone());
    assert_eq!(reply, moved(1));
    board.quotas[random.below(domains.into()) as usize] = random.pick(&NO_QUOTAS);
    let mut script = Script::new(board, table);
    for call in [
        right,
        take_back(domain, 0, &[]),
        take_back(domain, grant, &[1]),
        take_back(domains, grant, &[]),
        take_back(u32::MAX, 0, &[5]),
    ] {
        assert_eq!(script.call(call), Reply::refused(26));
    }
    script
}

/// A list that is right, if the table allows of one, with frames from F on in each place of a frame; and others.
fn few_frames(random: &mut Random, n: u32, frames: u32) -> Script {
    let mut board = accepted(random, n, frames, 1);
    let all = (1 << n) - 1;
    (board.grants[0], board.active[0]) = (all, all);
    let table = crowded_table(random, &board, &[0, 1, 2, 9, PAGES - 1]);
    let mut script = Script::new(board, table);
    let set = part_of(random, all);
    let right = right_list(random, &script.now, 0, set);
    let mut lists = vec![right.clone(), vec![0, 0, frames as u16]];
    if let [_, ..] = right.as_slice() {
        for place in [1, 2, right.len() - 2, right.len() - 1] {
            let beyond = [frames, frames + 1, frames + n, 4095, 4096, 65_535];
            for _ in 0..3 {
                let mut list = right.clone();
                list[place] = random.pick(&beyond) as u16;
                lists.push(list);
            }
        }
    }
    lists.rotate_left(1);
    for list in lists {
        script.call(take_back(0, set, &list));
    }
    for _ in 0..6 {
        let call = any_take_back(random, &script.now, 0);
        script.call(call);
    }
    script
}

/// A call of any other domain.
fn others_call(random: &mut Random, script: &Script, domain: u32) -> Call {
    let other = any_domain(random, script.now.board.domains);
    let other = match other == domain {
        true => script.now.board.domains,
        false => other,
    };
    any_call(random, script, other)
}

fn any_call(random: &mut Random, script: &Script, domain: u32) -> Call {
    let held = script.held(domain);
    let page = random.below(PAGES.into()) as u32;
    let mapped = match held.as_slice() {
        [] => page,
        held => random.pick(held).1,
    };
    match random.below(9) {
        0..=2 => fault(domain, page),
        3 => release(domain, mapped),
        4 => look(domain, mapped),
        5 => any_recolour(random, script, domain),
        6 => {
            let held = frames_held(&script.now.table, domain);
            let quota = asked_quota(random, &script.now.board, held, domain);
            set_quota(domain, quota)
        }
        7 => Call::Colours { domain },
        _ => any_take_back(random, &script.now, domain),
    }
}

/// From an empty table, recolourings that are taken back after others' calls and after lists that are not right, and
/// at times after own calls.
fn there_and_back(random: &mut Random, n: u32) -> Script {
    let frames = 3 * n + random.below(u64::from(3 * n) + 4) as u32;
    let domains = 1 + random.below(u64::from(n / 2).min(3)) as u32;
    let mut board = accepted(random, n, frames, domains);
    for quota in &mut board.quotas[..domains as usize] {
        let held = random.below(8) as usize;
        let low = any_quota(random, held);
        *quota = random.pick(&[QUOTA, QUOTA, low]);
    }
    let table = empty_table(random, frames);
    let mut script = Script::new(board, table);
    let widest = |script: &Script| {
        let size = |domain: &u32| script.now.board.grants[*domain as usize].count_ones();
        (0..domains).max_by_key(size).expect("there are domains")
    };
    for _ in 0..3 {
        let domain = match random.below(3) {
            0 => random.below(domains.into()) as u32,
            _ => widest(&script),
        };
        for _ in 0..1 + random.below(5) {
            let page = random.below(PAGES.into()) as u32;
            script.call(fault(domain, page));
        }
        let grant = script.now.board.grants[domain as usize];
        let mut set = part_of(random, grant);
        for _ in 0..6 {
            if script.moves(domain, set).is_none_or(|moves| moves == 0) {
                set = part_of(random, grant);
            }
        }
        let quota = script.now.board.quotas[domain as usize];
        let before = script.held(domain);
        let Some((former, list)) = recoloured(&mut script, domain, set) else {
            continue;
        };
        for _ in 0..random.below(6) {
            let call = others_call(random, &script, domain);
            script.call(call);
        }
        let own_call = random.below(4) == 0;
        if own_call {
            let call = any_call(random, &script, domain);
            script.call(call);
        }
        let mut done = own_call;
        for _ in 0..2 + random.below(5) {
            let mut wrong = list.clone();
            spoil(random, &script.now, domain, former, &mut wrong);
            let set = match random.below(6) {
                0 => any_set(random, grant),
                1 => script.now.board.active[domain as usize],
                _ => former,
            };
            let reply = script.call(take_back(domain, set, &wrong));
            done |= matches!(reply, Reply::Answer(_));
        }
        let list = match random.below(2) {
            0 => list,
            _ => shuffled(random, &list),
        };
        let reply = script.call(take_back(domain, former, &list));
        if !done {
            assert_eq!(reply, moved(list.len() / 3));
            assert_eq!(script.held(domain), before);
            let board = &script.now.board;
            let told = [board.active, board.quotas].map(|field| field[domain as usize]);
            assert_eq!(told, [former, quota]);
        }
    }
    script
}

/// Tables of any words, with quotas about as many as the frames held, and takings back of frames that no recolouring
/// has moved, in turn with other calls.
fn crowded(random: &mut Random, n: u32) -> Script {
    let frames = n + 1 + random.below(u64::from(4 * n) + 5) as u32;
    let domains = 1 + random.below(n.min(3).into()) as u32;
    let mut board = accepted(random, n, frames, domains);
    let pages: Vec<u32> = (0..random.pick(&[1, 2, 4, 10]))
        .map(|_| random.below(PAGES.into()) as u32)
        .chain([0, PAGES - 1])
        .collect();
    let table = crowded_table(random, &board, &pages);
    limit(random, &mut board, &table);
    let mut script = Script::new(board, table);
    while script.calls.len() < 24 {
        let domain = random.below(domains.into()) as u32;
        let call = match random.below(4) {
            0 => any_call(random, &script, domain),
            _ => any_take_back(random, &script.now, domain),
        };
        script.call(call);
    }
    script
}

/// Half of the longest table is moved and goes back: no list that passes is longer. Then lists as long as may be.
fn longest(random: &mut Random) -> Script {
    let board = board(2, 4096, &[(0x3, 0x1)], &[5]);
    let mut pages: Vec<u32> = (0..2048).map(|page| 2 * page + 1).collect();
    random.shuffle(&mut pages);
    let table = (0..4096)
        .map(|frame| match frame % 2 {
            0 => word(0, pages[frame / 2]) as u16,
            _ => FREE,
        })
        .collect();
    let mut script = Script::new(board, table);
    let (former, list) = recoloured(&mut script, 0, 0x2).expect("just as many are free");
    assert_eq!(list.len(), 3 * 2048);
    let no = Reply::refused(31);
    // the last triple's old frame is the first's
    let mut wrong = list.clone();
    wrong[3 * 2047 + 1] = wrong[1];
    assert_eq!(script.call(take_back(0, former, &wrong)), no);
    // all of it over and over, as far as there is room
    let most = LONGEST_LIST / 3 * 3;
    let long: Vec<u16> = list.iter().copied().cycle().take(most).collect();
    assert_eq!(script.call(take_back(0, former, &long)), no);
    let rubbish: Vec<u16> = (0..LONGEST_LIST).map(|_| random.word() as u16).collect();
    assert_eq!(script.call(take_back(0, former, &rubbish)), no);
    let reply = script.call(take_back(0, former, &list[3..]));
    assert_eq!(reply, Reply::refused(32));
    let list = shuffled(random, &list);
    assert_eq!(script.call(take_back(0, former, &list)), moved(2048));
    for list in [[1, 4096, 0], [1, 1, 4096]] {
        assert_eq!(script.call(take_back(0, 0x3, &list)), no);
    }
    script
}

/// Each wrong reading answers several scripts otherwise, one page more two of them, and frames that are compared in eight
/// bits at least one.
pub fn assert_told_apart(scripts: &[Script]) {
    for wrong in WRONG {
        let least = match wrong {
            Wrong::TwiceByLowByte => 1,
            Wrong::OnePageMore => 2,
            _ => 4,
        };
        let reading =
            |state: &mut _, call: &_, moves: &mut _| taking_back::call(state, call, moves, wrong);
        let others = scripts.iter().filter(|script| !alike(script, reading));
        let count = others.take(least).count();
        assert!(count == least, "{wrong:?}");
    }
}
