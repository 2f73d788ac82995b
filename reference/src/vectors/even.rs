//! Scripts in which it shows how a domain's frames lie over its colours (document 02, No. 7): tables crowded
//! into few colours, colours without a free frame, and words that do not count, for faults, releases and
//! recolourings. Each wrong reading of the rule leaves many of them with other answers, which is seen here,
//! so that the vectors cannot stop telling the readings apart.

use super::frames::{lent_list, Script};
use crate::model::frames::{word, Answer, Board, Call, DOMAINS, FREE, PAGES, QUOTA, RESERVED};
use crate::model::reply::Reply;
use crate::random::boards::{accepted, any_set, any_word, crowded_table, part_of};
use crate::random::Random;
use crate::readings::choices::{self, wrapped, Reading, WRONG};

pub fn scripts(random: &mut Random) -> Vec<Script> {
    let mut scripts = examples();
    for (n, count) in [(1, 4), (2, 12), (4, 22), (8, 26), (16, 20)] {
        scripts.extend((0..count).map(|_| crowded(random, n)));
    }
    scripts.extend([(16, 4096), (4, 2999)].map(|(n, frames)| long(random, n, frames)));
    scripts
}

/// A board of one domain with all of four colours, and this active set.
fn single(active: u32) -> Board {
    let mut board = Board {
        colours: 4,
        frames: 12,
        domains: 1,
        grants: [0; DOMAINS],
        active: [0; DOMAINS],
        quotas: [QUOTA; DOMAINS],
    };
    board.grants[0] = 0xF;
    board.active[0] = active;
    board
}

/// Faults after releases and a recolouring, with the answers that the tests of the model work out.
fn examples() -> Vec<Script> {
    let domain = 0;
    let answer = Reply::Answer;
    let mut faults = Script::new(single(0x7), vec![FREE; 12]);
    for (page, frame) in (0..).zip([0, 1, 2, 4, 5, 6]) {
        let fault = Call::Fault { domain, page };
        assert_eq!(faults.call(fault), answer(Answer::New(frame)));
    }
    for (page, frame) in [(0, 0), (1, 1), (4, 5)] {
        let release = Call::Release { domain, page };
        assert_eq!(faults.call(release), answer(Answer::Freed(frame)));
    }
    for (page, frame) in (6..).zip([1, 0, 5]) {
        let fault = Call::Fault { domain, page };
        assert_eq!(faults.call(fault), answer(Answer::New(frame)));
    }

    let table = vec![8, 1, 0, 6, 0, 2, 0, RESERVED, 7, 0, 3, 0];
    let mut moved = Script::new(single(0xF), table);
    let (set, room) = (0x6, 9);
    let recolour = Call::Recolour { domain, set, room };
    assert_eq!(moved.call(recolour), answer(Answer::Moved(3)));
    let after = [0, 1, 8, 0, 0, 2, 7, RESERVED, 0, 6, 3, 0];
    assert_eq!(moved.now.table, after);
    vec![faults, moved]
}

/// A domain with as many colours as any.
fn widest(board: &Board) -> u32 {
    let size = |domain: &u32| board.grants[*domain as usize].count_ones();
    (0..board.domains)
        .max_by_key(size)
        .expect("a board has domains")
}

/// Some releases, of frames of one colour as a rule, and then some faults of pages that are seldom mapped.
fn release_and_fault(random: &mut Random, script: &mut Script, domain: u32) {
    let n = script.now.board.colours as usize;
    let colour = random.below(n as u64) as usize;
    for _ in 0..random.below(5) {
        let mut held = script.held(domain);
        if random.below(3) > 0 {
            held.retain(|(frame, _)| frame % n == colour);
        }
        if !held.is_empty() {
            let (_, page) = random.pick(&held);
            script.call(Call::Release { domain, page });
        }
    }
    for _ in 0..1 + random.below(6) {
        let page = random.below(PAGES.into()) as u32;
        script.call(Call::Fault { domain, page });
    }
}

/// A recolouring that moves some frames as a rule, with a move list that is just long enough as a rule.
fn recolour(random: &mut Random, script: &mut Script, domain: u32) {
    let grant = script.now.board.grants[domain as usize];
    let mut set = any_set(random, grant);
    for _ in 0..random.below(8) {
        if script.moves(domain, set).is_none_or(|moves| moves < 2) {
            set = part_of(random, grant);
        }
    }
    let exact = 3 * script.moves(domain, set).unwrap_or(0);
    let room = match random.below(8) {
        0 => exact.saturating_sub(1),
        1 => exact + 3,
        _ => exact,
    };
    script.call(Call::Recolour { domain, set, room });
}

fn crowded(random: &mut Random, n: u32) -> Script {
    let frames = n + 1 + random.below(u64::from(4 * n) + 3) as u32;
    let domains = 1 + random.below(n.min(3).into()) as u32;
    let board = accepted(random, n, frames, domains);
    let pages: Vec<u32> = (0..random.pick(&[1, 2, 4, 10, 30]))
        .map(|_| random.below(PAGES.into()) as u32)
        .chain([0, PAGES - 1])
        .collect();
    let table = crowded_table(random, &board, &pages);
    let mut script = Script::new(board, table);
    while script.calls.len() < 28 {
        let domain = match random.below(3) {
            0 => random.below(domains.into()) as u32,
            _ => widest(&script.start.board),
        };
        match random.below(4) {
            0 => recolour(random, &mut script, domain),
            _ => release_and_fault(random, &mut script, domain),
        }
    }
    script
}

/// One domain holds unlike shares of all colours, which are more than 256 frames of colour 0 where N is 4. It
/// recolours to the even colours, to the odd ones and to all but one of these, with releases and faults
/// between.
fn long(random: &mut Random, n: u32, frames: u32) -> Script {
    let mut board = accepted(random, n, frames, 1);
    let all = (1 << n) - 1;
    board.grants[0] = all;
    board.active[0] = all;
    let table = (0..frames)
        .map(|frame| {
            let held = [45, 15, 20, 30][frame as usize % 4];
            match random.below(100) {
                share if share < held => word(0, random.below(PAGES.into()) as u32) as u16,
                share if share > 97 => any_word(random, 1, &[0, 7, PAGES - 1]),
                _ => FREE,
            }
        })
        .collect();
    let mut script = Script::new(board, table);
    for set in [all & 0x5555, all & 0xAAAA, all & !0x2] {
        release_and_fault(random, &mut script, 0);
        let room = 3 * script.moves(0, set).unwrap_or(0);
        let domain = 0;
        script.call(Call::Recolour { domain, set, room });
    }
    release_and_fault(random, &mut script, 0);
    script
}

/// Whether the reading answers all calls of the script as the model does, with the same table and moves.
fn alike(script: &Script, reading: Reading) -> bool {
    let mut model = script.start.clone();
    let mut other = script.start.clone();
    script.calls.iter().all(|call| {
        let [mut list, mut other_list] = [lent_list(call.room()), lent_list(call.room())];
        let reply = model.call(call, &mut list);
        let other_reply = choices::call(&mut other, call, &mut other_list, reading);
        reply == other_reply && model == other && list == other_list
    })
}

/// Each wrong reading answers several scripts otherwise, and counts that wrap at 256 at least one.
pub fn assert_told_apart(scripts: &[Script]) {
    for (name, reading) in WRONG {
        let others = scripts.iter().filter(|script| !alike(script, reading));
        assert!(others.count() >= 5, "{name}");
    }
    assert!(scripts.iter().any(|script| !alike(script, wrapped)));
}
