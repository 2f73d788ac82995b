//! Scripts in which quotas show (document 02, No. 6): boards with quotas that are none, below and beyond the count,
//! quotas beside the frames held, and tables with words that count and words that do not. Each wrong reading of the
//! request leaves some of them with other answers, which is seen here, so that the vectors cannot stop telling the
//! readings apart.

use super::frames::{any_recolour, lent_list, Script};
use crate::model::frames::{
    frames_held, word, Answer, Board, Call, State, DOMAINS, FREE, PAGES, QUOTA, RESERVED,
};
use crate::model::reply::Reply;
use crate::random::boards::{
    accepted, any_domain, any_page, any_quota, any_set, asked_quota, crowded_table, empty_table,
    limit, part_of, spoil, NO_QUOTAS,
};
use crate::random::Random;
use crate::readings::quotas::{faults_by, quotas_by, wrapped, wrong, COUNTS};

/// Given are scripts whose boards 2 to 7 refuse.
pub fn scripts(random: &mut Random, refused: &[Script]) -> Vec<Script> {
    let mut scripts = vec![reached(), counted(), held_above()];
    scripts.extend(set_on_refused_boards(random, refused));
    scripts.extend(spoilt_fields(random));
    scripts.extend(spoilt_sets_and_fields(random));
    scripts.extend(fields_beyond(random));
    for (n, count) in [(1, 5), (2, 14), (4, 22), (8, 22), (16, 16)] {
        scripts.extend((0..count).map(|_| limited(random, n)));
    }
    scripts.extend([2, 4, 4, 8, 8, 8, 16, 16].map(|n| above(random, n)));
    scripts.extend((0..40).map(|_| filling(random)));
    scripts.push(long(random));
    scripts.push(all_held());
    scripts
}

pub fn board(colours: u32, frames: u32, sets: &[(u32, u32)], quotas: &[u32]) -> Board {
    let mut board = Board {
        colours,
        frames,
        domains: sets.len() as u32,
        grants: [0; DOMAINS],
        active: [0; DOMAINS],
        quotas: [QUOTA; DOMAINS],
    };
    for (domain, (grant, active)) in sets.iter().enumerate() {
        (board.grants[domain], board.active[domain]) = (*grant, *active);
    }
    board.quotas[..quotas.len()].copy_from_slice(quotas);
    board
}

/// The calls of a domain, with what each is answered.
pub fn answered(script: &mut Script, calls: &[(Call, Reply<Answer>)]) {
    for (call, reply) in calls {
        assert_eq!(script.call(call.clone()), *reply, "{call:?}");
    }
}

pub fn look(domain: u32, page: u32) -> Call {
    Call::Look { domain, page }
}

pub fn fault(domain: u32, page: u32) -> Call {
    Call::Fault { domain, page }
}

pub fn release(domain: u32, page: u32) -> Call {
    Call::Release { domain, page }
}

pub fn set_quota(domain: u32, quota: u32) -> Call {
    Call::SetQuota { domain, quota }
}

pub fn recolour(domain: u32, set: u32, room: usize) -> Call {
    Call::Recolour { domain, set, room }
}

pub fn active(set: u32, quota: u32) -> Reply<Answer> {
    Reply::Answer(Answer::Active { set, quota })
}

pub fn new(frame: usize) -> Reply<Answer> {
    Reply::Answer(Answer::New(frame))
}

fn old(frame: usize) -> Reply<Answer> {
    Reply::Answer(Answer::Old(frame))
}

pub fn freed(frame: usize) -> Reply<Answer> {
    Reply::Answer(Answer::Freed(frame))
}

fn quota(quota: u32) -> Reply<Answer> {
    Reply::Answer(Answer::Quota(quota))
}

pub fn moved(count: usize) -> Reply<Answer> {
    Reply::Answer(Answer::Moved(count))
}

/// The recorder's board of document 01, on which domain 0 has the frames 0, 1, 4 and 5. It reaches a quota of 2,
/// and recolours to colour 0: frame 1 goes to frame 4, and none of the colour is free.
fn reached() -> Script {
    let board = board(4, 8, &[(0x3, 0x3), (0xC, 0xC)], &[]);
    let mut script = Script::new(board, vec![FREE; 8]);
    let no = Reply::refused;
    let calls = [
        (set_quota(0, 2), quota(2)),
        (fault(0, 9), new(0)),
        (fault(0, 1), new(1)),
        (fault(0, 2), no(28)),
        (fault(0, 9), old(0)),
        // 10 before 28
        (fault(0, PAGES), no(10)),
        (set_quota(0, 1), no(27)),
        (set_quota(0, 0), no(27)),
        (set_quota(0, QUOTA + 1), no(27)),
        (set_quota(0, u32::MAX), no(27)),
        (set_quota(0, 2), quota(2)),
        (Call::Colours { domain: 0 }, active(0x3, 2)),
        (Call::Colours { domain: 1 }, active(0xC, QUOTA)),
        (fault(1, 0), new(2)),
        // 8 before 27
        (set_quota(2, 0), no(8)),
        (set_quota(8, u32::MAX), no(8)),
        (recolour(0, 0x1, 3), moved(1)),
        (Call::Colours { domain: 0 }, active(0x1, 2)),
        // 28 before 12
        (fault(0, 2), no(28)),
        (set_quota(0, 3), quota(3)),
        (fault(0, 2), no(12)),
        (release(0, 9), freed(0)),
        (set_quota(0, 1), quota(1)),
        (fault(0, 2), no(28)),
        // above F
        (set_quota(0, 9), quota(9)),
        (fault(0, 2), new(0)),
        (set_quota(0, QUOTA), quota(QUOTA)),
        (Call::Colours { domain: 0 }, active(0x1, QUOTA)),
    ];
    answered(&mut script, &calls);
    script
}

/// Domain 0 holds frames 0 and 4 for page 5, frame 1 in a colour that is not active, frame 2 in one of domain 1 and
/// frame 3 in nobody's: five. Domain 1 holds frames 5 and 6 for its first and its last page. Frames 7 and 11 have
/// words of domains beyond the count, frame 9 one of nobody, and frame 10 is reserved.
fn counted() -> Script {
    let board = board(4, 16, &[(0x3, 0x1), (0x4, 0x4)], &[6, 2]);
    let mut table = vec![
        6, 1, 4096, 8, 6, 4097, 8192, 8193, FREE, 32_769, RESERVED, 32_768,
    ];
    table.resize(16, FREE);
    let mut script = Script::new(board, table);
    let no = Reply::refused;
    let calls = [
        (fault(0, 1), new(8)),
        (fault(0, 2), no(28)),
        (fault(0, 5), old(0)),
        (fault(0, PAGES - 1), old(2)),
        (set_quota(0, 5), no(27)),
        (set_quota(0, 6), quota(6)),
        (set_quota(0, 7), quota(7)),
        (fault(0, 2), new(12)),
        (fault(0, 3), no(28)),
        (fault(1, 1), no(28)),
        (set_quota(1, 1), no(27)),
        (set_quota(1, 3), quota(3)),
        (fault(1, 1), new(14)),
        (set_quota(2, QUOTA), no(8)),
        (Call::Colours { domain: 1 }, active(0x4, 3)),
    ];
    answered(&mut script, &calls);
    script
}

/// Four frames are held where the quota is 2. Recolouring goes on: frames 1 and 3 go to 4 and 6.
fn held_above() -> Script {
    let board = board(2, 8, &[(0x3, 0x3)], &[2]);
    let mut script = Script::new(board, vec![1, 2, 3, 4, 0, 0, 0, 0]);
    let no = Reply::refused;
    let calls = [
        (look(0, 0), Reply::Answer(Answer::Mapped(0))),
        (fault(0, 0), old(0)),
        (fault(0, 9), no(28)),
        (set_quota(0, 3), no(27)),
        // the old one
        (set_quota(0, 2), no(27)),
        (recolour(0, 0x1, 6), moved(2)),
        (Call::Colours { domain: 0 }, active(0x1, 2)),
        (fault(0, 9), no(28)),
        (release(0, 0), freed(0)),
        (release(0, 1), freed(4)),
        (set_quota(0, 2), quota(2)),
        (fault(0, 9), no(28)),
        (release(0, 2), freed(2)),
        (fault(0, 9), new(0)),
        (fault(0, 10), no(28)),
    ];
    answered(&mut script, &calls);
    script
}

/// One of the calls but taking back, with arguments that are refused now and then.
fn any_call(random: &mut Random, state: &State, operation: u64) -> Call {
    let domain = any_domain(random, state.board.domains);
    let page = any_page(random, &[0, 1, PAGES - 1]);
    let grant = state.board.grants.get(domain as usize).unwrap_or(&1);
    let set = any_set(random, *grant);
    let room = random.pick(&[0, 3, 30]);
    let held = frames_held(&state.table, domain);
    match operation {
        0 => Call::Look { domain, page },
        1 => Call::Fault { domain, page },
        2 => Call::Release { domain, page },
        3 => Call::Colours { domain },
        4 => Call::Recolour { domain, set, room },
        _ => set_quota(domain, asked_quota(random, &state.board, held, domain)),
    }
}

/// Boards that 2 to 7 refuse, now with any quotas: set quota is refused as the other calls are, and none by 26.
fn set_on_refused_boards(random: &mut Random, refused: &[Script]) -> Vec<Script> {
    let short = refused
        .iter()
        .filter(|script| script.start.table.len() < 100);
    let mut scripts = Vec::new();
    for Script { start, calls, .. } in short {
        let expected = start
            .clone()
            .call(&calls[0], &mut lent_list(calls[0].room()));
        let mut board = start.board.clone();
        for quota in &mut board.quotas {
            let none = random.pick(&NO_QUOTAS);
            *quota = random.pick(&[QUOTA, 1, none]);
        }
        let mut script = Script::new(board, start.table.clone());
        for operation in [5, 5, random.below(5)] {
            let call = any_call(random, &script.now, operation);
            assert_eq!(script.call(call), expected);
        }
        scripts.push(script);
    }
    scripts
}

/// Boards with a domain's quota that is none, for each count and domain: all calls are refused by 26, with the
/// right arguments, and with others that are tested after it. Others' quotas are at fault too, now and then.
fn spoilt_fields(random: &mut Random) -> Vec<Script> {
    let mut scripts = Vec::new();
    let mut spoilt = NO_QUOTAS.into_iter().cycle();
    for domains in 1..=DOMAINS as u32 {
        for row in 0..domains {
            let quota = spoilt.next().expect("they go round");
            let mut others = [QUOTA; 2];
            if random.below(3) == 0 {
                others = [(); 2].map(|()| random.pick(&NO_QUOTAS));
            }
            scripts.push(spoilt_field(random, domains, row, quota, others));
        }
        // beside the limits, and of the last domain alone
        for quota in [0, QUOTA + 1] {
            scripts.push(spoilt_field(
                random,
                domains,
                domains - 1,
                quota,
                [1, QUOTA],
            ));
        }
    }
    scripts
}

/// A board with this quota of a domain, and some other's before that.
fn spoilt_field(
    random: &mut Random,
    domains: u32,
    row: u32,
    quota: u32,
    others: [u32; 2],
) -> Script {
    let n = domains.next_power_of_two().max(random.pick(&[1, 8, 16]));
    let frames = 1 + random.below(12) as u32;
    let mut board = accepted(random, n, frames, domains);
    let table = crowded_table(random, &board, &[0, 1, PAGES - 1]);
    limit(random, &mut board, &table);
    for other in others {
        board.quotas[random.below(domains.into()) as usize] = other;
    }
    board.quotas[row as usize] = quota;
    let mut script = Script::new(board, table);
    all_refused(random, &mut script, row, Reply::refused(26));
    script
}

/// The calls but taking back with the right arguments, of this domain or another, and each once more with any.
fn all_refused(random: &mut Random, script: &mut Script, row: u32, expected: Reply<Answer>) {
    let domain = match random.below(2) {
        0 => row,
        _ => random.below(script.start.board.domains.into()) as u32,
    };
    let set = script.start.board.active[domain as usize];
    let right = [
        look(domain, 1),
        fault(domain, 1),
        release(domain, 1),
        Call::Colours { domain },
        recolour(domain, set, 60),
        set_quota(domain, QUOTA),
    ];
    for (operation, call) in (0..).zip(right) {
        let any = any_call(random, &script.now, operation);
        for call in [call, any] {
            assert_eq!(script.call(call), expected);
        }
    }
    // a number that is no domain
    let beyond = random.pick(&[script.start.board.domains, 8, u32::MAX]);
    for call in [
        Call::Colours { domain: beyond },
        fault(beyond, PAGES),
        set_quota(beyond, 0),
    ] {
        assert_eq!(script.call(call), expected);
    }
    assert_eq!(script.now, script.start);
}

/// 5 to 7 go before 26, whichever domain's sets and quota are at fault.
fn spoilt_sets_and_fields(random: &mut Random) -> Vec<Script> {
    let mut scripts = Vec::new();
    for number in [5, 6, 7, 7, 7] {
        for domains in [2, 3, 8] {
            let mut board = accepted(random, 16, 6, domains);
            let table = empty_table(random, 6);
            limit(random, &mut board, &table);
            let row = random.below(u64::from(domains) - 1) as u32;
            spoil(random, &mut board, number, row);
            let at_fault = random.below(domains.into()) as usize;
            board.quotas[at_fault] = random.pick(&NO_QUOTAS);
            let mut script = Script::new(board, table);
            all_refused(random, &mut script, row, Reply::Refused { number, row });
            scripts.push(script);
        }
    }
    scripts
}

/// Quotas that are none in all fields beyond the count: no call tells, and none changes them.
fn fields_beyond(random: &mut Random) -> Vec<Script> {
    let mut scripts = Vec::new();
    let mut spoilt = NO_QUOTAS.into_iter().cycle();
    for domains in (1..DOMAINS as u32).chain([1, 2, 3]) {
        let n = domains.next_power_of_two().max(random.pick(&[1, 8, 16]));
        let frames = n + random.below(12) as u32;
        let mut board = accepted(random, n, frames, domains);
        let table = crowded_table(random, &board, &[0, 1, PAGES - 1]);
        limit(random, &mut board, &table);
        let beyond = domains as usize..DOMAINS;
        for quota in &mut board.quotas[beyond.clone()] {
            *quota = spoilt.next().expect("they go round");
        }
        let mut twin = board.clone();
        twin.quotas[beyond.clone()].fill(QUOTA);
        let mut twin = Script::new(twin, table.clone());
        let mut script = Script::new(board, table);
        for number in 0..12 {
            let call = match number {
                // of the last domain, behind whose field they stand
                0 => set_quota(domains - 1, QUOTA),
                _ => any_call(random, &script.now, number % 6),
            };
            assert_eq!(script.call(call.clone()), twin.call(call));
        }
        let fields = |script: &State| script.board.quotas[beyond.clone()].to_vec();
        assert_eq!(fields(&script.now), fields(&script.start));
        scripts.push(script);
    }
    scripts
}

/// Any call of a domain that holds about as many frames as its quota.
fn limited_call(random: &mut Random, script: &Script, pages: &[u32]) -> Call {
    let state = &script.now;
    let domain = any_domain(random, state.board.domains);
    let held = script.held(domain);
    let mapped = match held.as_slice() {
        [] => 0,
        held => random.pick(held).1,
    };
    let page = match random.below(12) {
        0..=2 => mapped,
        3..=5 => any_page(random, pages),
        // the next domain's word for the page
        6 => PAGES + mapped,
        _ => random.below(PAGES.into()) as u32,
    };
    match random.below(16) {
        0..=5 => Call::Fault { domain, page },
        6..=10 => set_quota(
            domain,
            asked_quota(random, &state.board, held.len(), domain),
        ),
        11 => release(domain, mapped),
        12 => Call::Colours { domain },
        13 => Call::Look { domain, page },
        _ => any_recolour(random, script, domain),
    }
}

/// A crowded table, on which each domain's quota is about as many frames as it holds.
fn limited(random: &mut Random, n: u32) -> Script {
    let frames = n + 1 + random.below(u64::from(3 * n) + 5) as u32;
    let domains = 1 + random.below(n.min(4).into()) as u32;
    let mut board = accepted(random, n, frames, domains);
    let pages: Vec<u32> = (0..random.pick(&[1, 2, 4, 10]))
        .map(|_| random.below(PAGES.into()) as u32)
        .chain([0, PAGES - 1])
        .collect();
    let table = crowded_table(random, &board, &pages);
    limit(random, &mut board, &table);
    let mut script = Script::new(board, table);
    while script.calls.len() < 26 {
        let call = limited_call(random, &script, &pages);
        script.call(call);
    }
    script
}

/// A domain holds more frames than its quota, and recolours with more moves than that. It is refused frames until
/// it has released as many as it is above.
fn above(random: &mut Random, n: u32) -> Script {
    let mut script = loop {
        let frames = 4 * n + random.below(2 * u64::from(n)) as u32;
        let mut board = accepted(random, n, frames, 1 + u32::from(n > 4));
        let table = crowded_table(random, &board, &[3, 4, 5, 6, 7]);
        limit(random, &mut board, &table);
        board.quotas[0] = 1 + random.below(3) as u32;
        let mut script = Script::new(board, table);
        let set = part_of(random, script.start.board.grants[0]);
        let moves = script.moves(0, set).unwrap_or(0);
        if moves as u32 > script.start.board.quotas[0] {
            script.call(recolour(0, set, 3 * moves));
            break script;
        }
    };
    let grant = script.start.board.grants[0];
    for _ in 0..4 {
        let page = random.below(PAGES.into()) as u32;
        script.call(fault(0, page));
        let set = part_of(random, grant);
        let room = 3 * script.moves(0, set).unwrap_or(0);
        script.call(recolour(0, set, room));
        let held = script.held(0);
        let asked = asked_quota(random, &script.now.board, held.len(), 0);
        script.call(set_quota(0, asked));
        script.call(release(0, random.pick(&held).1));
    }
    script.call(fault(0, 9));
    script
}

/// An empty table and low quotas.
fn filling(random: &mut Random) -> Script {
    let n = random.pick(&[1, 2, 4, 8, 16]);
    let domains = 1 + random.below(n.min(4)) as u32;
    let frames = n as u32 + 1 + random.below(4 * n) as u32;
    let mut board = accepted(random, n as u32, frames, domains);
    for quota in &mut board.quotas[..domains as usize] {
        let held = random.below(4) as usize;
        *quota = any_quota(random, held);
    }
    let table = empty_table(random, frames);
    let mut script = Script::new(board, table);
    while script.calls.len() < 26 {
        let call = limited_call(random, &script, &[0, PAGES - 1]);
        script.call(call);
    }
    script
}

/// One domain holds a third of a long table, and its quota is just as much. Then a frame more, and half of
/// the colours.
fn long(random: &mut Random) -> Script {
    let mut board = board(4, 4096, &[(0xF, 0xF)], &[]);
    let table: Vec<u16> = (0..4096)
        .map(|frame| match random.below(100) {
            0..=2 => RESERVED,
            3..=5 => word(1, frame) as u16,
            6..=12 => word(0, random.below(PAGES.into()) as u32 / 2) as u16,
            13..=40 => word(0, frame / 2) as u16,
            _ => FREE,
        })
        .collect();
    let held = frames_held(&table, 0) as u32;
    board.quotas[0] = held;
    let mut script = Script::new(board, table);
    let no = Reply::refused;
    let calls = [
        (Call::Colours { domain: 0 }, active(0xF, held)),
        (fault(0, 4000), no(28)),
        (set_quota(0, held - 1), no(27)),
        (set_quota(0, held % 256 + 1), no(27)),
        (set_quota(0, held), quota(held)),
        (set_quota(0, held + 1), quota(held + 1)),
    ];
    answered(&mut script, &calls);
    let Reply::Answer(Answer::New(frame)) = script.call(fault(0, 4000)) else {
        panic!("a frame is free");
    };
    let calls = [
        (fault(0, 4001), no(28)),
        (fault(0, 4000), old(frame)),
        (set_quota(0, held), no(27)),
    ];
    answered(&mut script, &calls);
    let room = 3 * script.moves(0, 0x9).expect("half of the colours have room");
    let moved = script.call(recolour(0, 0x9, room));
    assert!(matches!(moved, Reply::Answer(Answer::Moved(_))));
    answered(&mut script, &[(fault(0, 4001), no(28))]);
    script
}

/// All of a table's 4,096 frames are held, some for one page: the highest quota is reached.
fn all_held() -> Script {
    let board = board(1, 4096, &[(0x1, 0x1)], &[]);
    let table = (0..4096).map(|frame| word(0, frame / 2) as u16).collect();
    let mut script = Script::new(board, table);
    let no = Reply::refused;
    let calls = [
        (fault(0, 4000), no(28)),
        (fault(0, 2047), old(4094)),
        (set_quota(0, QUOTA - 1), no(27)),
        (set_quota(0, QUOTA), quota(QUOTA)),
        (release(0, 7), freed(14)),
        (set_quota(0, QUOTA - 1), quota(QUOTA - 1)),
        (fault(0, 4000), no(28)),
        (set_quota(0, QUOTA), quota(QUOTA)),
        (fault(0, 4000), new(14)),
        (fault(0, 4001), no(28)),
    ];
    answered(&mut script, &calls);
    script
}

/// Whether a loader answers all calls of the script as the model does, with the same board, table and lists.
pub fn alike(
    script: &Script,
    other: impl Fn(&mut State, &Call, &mut [u16]) -> Reply<Answer>,
) -> bool {
    let mut model = script.start.clone();
    let mut state = script.start.clone();
    script.calls.iter().all(|call| {
        let [mut list, mut other_list] = [lent_list(call.room()), lent_list(call.room())];
        let reply = model.call(call, &mut list);
        let other_reply = other(&mut state, call, &mut other_list);
        reply == other_reply && model == state && list == other_list
    })
}

/// Each wrong reading answers several scripts otherwise, and counts that wrap at 256 at least one; each wrong count
/// of the frames held does so in faults and in set quota.
pub fn assert_told_apart(scripts: &[Script]) {
    let told = |name: &str, least: usize, other: &dyn Fn(&mut State, &Call, &mut [u16]) -> _| {
        let others = scripts.iter().filter(|script| !alike(script, other));
        assert!(others.take(least).count() == least, "{name}");
    };
    for (name, reading) in wrong() {
        told(name, 5, &reading);
    }
    for (name, count) in COUNTS {
        told(name, 5, &|state, call, moves| {
            faults_by(state, call, moves, count)
        });
        told(name, 5, &|state, call, moves| {
            quotas_by(state, call, moves, count)
        });
    }
    told("counts of 8 bits", 1, &|state, call, moves| {
        faults_by(state, call, moves, wrapped)
    });
    told("counts of 8 bits", 1, &|state, call, moves| {
        quotas_by(state, call, moves, wrapped)
    });
}
