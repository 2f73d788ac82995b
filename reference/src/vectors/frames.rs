//! Vectors of the calls of document 01, "Board and frame table", and of document 02, Nos. 6 and 10, as scripts of
//! little-endian 32-bit words, their count first. A script is the board (27 words), the table's length and words,
//! the number of calls, and four words for each: operation, domain, page, set or quota, length of the move list.
//! Behind the four of a taking back stand the words of its list.

use super::{board_words, even, hash, page_order, put, quota, taking_back, Set};
use crate::model::cache::colours;
use crate::model::frames::{
    word, Answer, Board, Call, State, DOMAINS, FREE, PAGES, QUOTA, RESERVED,
};
use crate::model::reply::Reply;
use crate::random::boards::{
    accepted, any_domain, any_page, any_set, any_word, empty_table, part_of, spoil,
};
use crate::random::Random;
use crate::readings::choices::{self, lowest_first};

const LONGEST_TABLE: usize = 4200;
pub const LONGEST_LIST: usize = 13_000;
const CALLS: [&str; 7] = [
    "look",
    "fault",
    "release",
    "colours",
    "recolour",
    "set quota",
    "take back",
];

pub fn set(seed: u64) -> Set {
    let mut set = Set::new("vectors_frames");
    let others = [
        &[10][..],
        &[10, 12, 28],
        &[10, 14],
        &[],
        &[9, 12, 13],
        &[27],
        &[9, 31, 32],
    ];
    for (call, others) in CALLS.into_iter().zip(others) {
        set.want(call, &[2, 3, 4, 8, 26]);
        set.want(call, others);
        set.want_rows(call, 5, 0..8);
        // the lower of two domains is named, so never the last
        set.want_rows(call, 6, 0..7);
        set.want_rows(call, 7, 0..8);
    }
    let mut random = Random::new(seed);
    let mut scripts = examples();
    let first = scripts.len();
    scripts.extend(spoilt_sizes(&mut random));
    scripts.extend(spoilt_domains(&mut random));
    let refused = first..scripts.len();
    scripts.extend(from_empty_tables(&mut random));
    scripts.extend(from_any_tables(&mut random));
    scripts.extend(long_tables(&mut random));
    let crowded = even::scripts(&mut random);
    even::assert_told_apart(&crowded);
    scripts.extend(crowded);
    let listed = page_order::scripts(&mut random);
    page_order::assert_told_apart(&listed);
    scripts.extend(listed);
    let limited = quota::scripts(&mut random, &scripts[refused.clone()]);
    quota::assert_told_apart(&limited);
    scripts.extend(limited);
    let taken = taking_back::scripts(&mut random, &scripts[refused]);
    taking_back::assert_told_apart(&taken);
    scripts.extend(taken);
    put(&mut set, scripts.len());
    for script in &scripts {
        add(&mut set, script);
    }
    set
}

/// How calls run while a script is drawn.
type Step = fn(&mut State, &Call, &mut [u16]) -> Reply<Answer>;

pub struct Script {
    pub start: State,
    pub now: State,
    pub calls: Vec<Call>,
    step: Step,
}

impl Script {
    pub fn new(board: Board, table: Vec<u16>) -> Self {
        let start = State { board, table };
        Script {
            now: start.clone(),
            start,
            calls: Vec::new(),
            step: State::call,
        }
    }

    /// A script whose calls were first drawn before document 02, No. 7. They are still drawn as if frames were
    /// chosen lowest first, so that they stay what they were; what they answer is the model's.
    fn lowest_first(board: Board, table: Vec<u16>) -> Self {
        Script {
            step: |state, call, moves| choices::call(state, call, moves, lowest_first),
            ..Script::new(board, table)
        }
    }

    pub fn call(&mut self, call: Call) -> Reply<Answer> {
        self.listed(call).0
    }

    /// What the call answers, and the list that it was lent to write as it stands afterwards.
    pub fn listed(&mut self, call: Call) -> (Reply<Answer>, Vec<u16>) {
        let mut list = lent_list(call.room());
        let reply = (self.step)(&mut self.now, &call, &mut list);
        self.calls.push(call);
        (reply, list)
    }

    /// The frames that the domain holds, each with its page.
    pub fn held(&self, domain: u32) -> Vec<(usize, u32)> {
        let first = word(domain, 0);
        let words = self.now.table.iter().map(|held| u64::from(*held));
        let pages = words.map(|held| held.checked_sub(first));
        pages
            .enumerate()
            .filter_map(|(frame, page)| Some((frame, page?)))
            .filter(|(_, page)| *page < u64::from(PAGES))
            .map(|(frame, page)| (frame, page as u32))
            .collect()
    }

    /// How many moves the recolouring would make, were its list long enough.
    pub fn moves(&self, domain: u32, set: u32) -> Option<usize> {
        let room = LONGEST_LIST;
        let call = Call::Recolour { domain, set, room };
        match self.now.clone().call(&call, &mut lent_list(room)) {
            Reply::Answer(Answer::Moved(count)) => Some(count),
            _ => None,
        }
    }
}

/// The move list before a call: no two words near each other are alike, and none is 0.
pub fn lent_list(length: usize) -> Vec<u16> {
    (0..length).map(|i| ((i * 7 + 3) % 65_536) as u16).collect()
}

fn hash_short(words: &[u16]) -> u32 {
    hash(words.iter().map(|word| u32::from(*word)))
}

/// Writes a script and what its calls answer, each on the board and table that the one before left: the
/// reply and a hash of the table; for a recolouring also one of the board, one of the triples as they stand in
/// the move list, and one of its other words; for set quota one of the board; for a taking back one of the board and
/// one of its list, which it does not change.
fn add(set: &mut Set, script: &Script) {
    assert!(script.start.table.len() <= LONGEST_TABLE);
    for word in board_words(&script.start.board) {
        put(set, word);
    }
    put(set, script.start.table.len());
    for word in &script.start.table {
        put(set, *word);
    }
    put(set, script.calls.len());
    let mut state = script.start.clone();
    for call in &script.calls {
        let (operation, argument) = match *call {
            Call::Look { page, .. } => (0, page),
            Call::Fault { page, .. } => (1, page),
            Call::Release { page, .. } => (2, page),
            Call::Colours { .. } => (3, 0),
            Call::Recolour { set, .. } => (4, set),
            Call::SetQuota { quota, .. } => (5, quota),
            Call::TakeBack { set, .. } => (6, set),
        };
        let read = match call {
            Call::TakeBack { list, .. } => list.as_slice(),
            _ => &[],
        };
        let length = call.room() + read.len();
        assert!(length <= LONGEST_LIST);
        for word in [operation, call.domain(), argument] {
            put(set, word);
        }
        put(set, length);
        for word in read {
            put(set, *word);
        }
        let mut list = lent_list(call.room());
        let reply = state.call(call, &mut list);
        set.reply(CALLS[operation as usize], reply);
        set.line(&format!("table {}", hash_short(&state.table)));
        let board = hash(board_words(&state.board));
        if let Call::SetQuota { .. } = call {
            set.line(&format!("board {board}"));
        }
        if let Call::TakeBack { .. } = call {
            set.line(&format!("board {board} list {}", hash_short(read)));
        }
        if let Call::Recolour { .. } = call {
            let moves = match reply {
                Reply::Answer(Answer::Moved(count)) => count,
                _ => 0,
            };
            let (triples, rest) = list.split_at(3 * moves);
            set.line(&format!(
                "board {board} moves {} rest {}",
                hash_short(triples),
                hash_short(rest)
            ));
        }
    }
}

/// The examples of document 01 with the replies that are printed there; the recorder's board.
fn examples() -> Vec<Script> {
    let mut grants = [0; DOMAINS];
    grants[..2].copy_from_slice(&[0x3, 0xC]);
    let board = Board {
        colours: 4,
        frames: 8,
        domains: 2,
        grants,
        active: grants,
        quotas: [QUOTA; DOMAINS],
    };
    let answer = Reply::Answer;
    let recolour = |set, room| Call::Recolour {
        domain: 0,
        set,
        room,
    };
    let fault = |domain, page| Call::Fault { domain, page };
    let look = |page| Call::Look { domain: 0, page };
    let mut marked = Script::new(board.clone(), vec![FREE; 8]);
    assert_eq!(marked.call(fault(0, 9)), answer(Answer::New(0)));
    assert_eq!(marked.call(fault(1, 0)), answer(Answer::New(2)));
    assert_eq!(marked.call(fault(0, 1)), answer(Answer::New(1)));
    let mut list = [0; 3];
    let mut before = marked.now.clone();
    assert_eq!(
        before.call(&recolour(0x1, 3), &mut list),
        answer(Answer::Moved(1))
    );
    assert_eq!(list, [1, 1, 4]);
    assert_eq!(marked.call(recolour(0x1, 3)), answer(Answer::Moved(1)));
    let table = [10, 0, 4097, 0, 2, 0, 0, 0];
    assert_eq!(marked.now.table, table);
    assert_eq!(marked.call(fault(0, 2)), Reply::refused(12));
    assert_eq!(marked.now.table, table);

    let mut limits = Script::new(board, vec![FREE; 8]);
    assert_eq!(limits.call(look(4095)), answer(Answer::Unmapped));
    assert_eq!(limits.call(fault(0, 4095)), answer(Answer::New(0)));
    assert_eq!(limits.call(look(4095)), answer(Answer::Mapped(0)));
    assert_eq!(limits.call(look(4096)), Reply::refused(10));
    assert_eq!(limits.call(recolour(0x2, 2)), Reply::refused(13));
    assert_eq!(limits.call(recolour(0x1, 0)), answer(Answer::Moved(0)));
    vec![marked, limits]
}

/// The five calls of document 01 with arguments that may be refused too, on a board that refuses them before that.
fn call_all(random: &mut Random, script: &mut Script, expected: Reply<Answer>) {
    for operation in 0..5 {
        let domain = match random.below(2) {
            0 => 0,
            _ => any_domain(random, script.start.board.domains),
        };
        let page = any_page(random, &[0, 1, 4095]);
        let set = any_set(random, script.start.board.grants[0]);
        let room = random.pick(&[0, 3, 30]);
        let reply = script.call(match operation {
            0 => Call::Look { domain, page },
            1 => Call::Fault { domain, page },
            2 => Call::Release { domain, page },
            3 => Call::Colours { domain },
            _ => Call::Recolour { domain, set, room },
        });
        assert_eq!(reply, expected);
    }
    assert_eq!(script.now, script.start);
}

/// Refusals 2 to 4, each alone and with failures that are tested after it.
fn spoilt_sizes(random: &mut Random) -> Vec<Script> {
    let colours = [
        0,
        3,
        5,
        6,
        7,
        9,
        12,
        15,
        17,
        24,
        32,
        33,
        256,
        (1 << 16) + 4,
        1 << 31,
        u32::MAX,
    ];
    // F, and the table's length
    let frames = [
        (0, 0),
        (0, 5),
        (4097, 5),
        ((1 << 16) + 5, 5),
        (1 << 31, 0),
        (u32::MAX, 6),
        (1, 0),
        (1, 2),
        (5, 0),
        (5, 4),
        (5, 6),
        (6, 12),
        (4096, 40),
    ];
    let domains = [0, 9, 10, 16, 255, 256 + 3, (1 << 16) + 3, 1 << 31, u32::MAX];
    let mut scripts = Vec::new();
    let mut add = |random: &mut Random, board: Board, length: usize, number: u32| {
        let table = empty_table(random, length as u32);
        let mut script = Script::new(board, table);
        call_all(random, &mut script, Reply::refused(number));
        scripts.push(script);
    };
    for several in [false, true] {
        let board = |random: &mut Random| {
            let mut board = accepted(random, 16, 5, 3);
            if several {
                let (number, row) = random.pick(&[(5, 1), (6, 0), (7, 2)]);
                spoil(random, &mut board, number, row);
            }
            board
        };
        for n in colours {
            let mut board = board(random);
            board.colours = n;
            let mut length = 5;
            if several {
                (board.frames, length) = random.pick(&frames);
                board.domains = random.pick(&domains);
            }
            add(random, board, length, 2);
        }
        for (f, length) in frames {
            let mut board = board(random);
            board.frames = f;
            if several {
                board.domains = random.pick(&domains);
            }
            add(random, board, length, 3);
        }
        for count in domains {
            let mut board = board(random);
            board.domains = count;
            add(random, board, 5, 4);
        }
    }
    let mut long = accepted(random, 16, 4097, 3);
    add(random, long.clone(), 4097, 3);
    long.frames = 4096;
    add(random, long, 4097, 3);
    scripts
}

/// Refusals 5 to 7 with every row, each alone and with failures that are tested after it: the same
/// number at a later row, a later number at any row.
fn spoilt_domains(random: &mut Random) -> Vec<Script> {
    let mut scripts = Vec::new();
    let faults: Vec<(u32, u32)> = [(5, 8), (6, 7), (7, 8)]
        .into_iter()
        .flat_map(|(number, rows)| (0..rows).map(move |row| (number, row)))
        .collect();
    let fits = |(number, row): (u32, u32), domains| row + u32::from(number == 6) < domains;
    for (place, first) in faults.iter().copied().enumerate() {
        for more in [0, 0, 1, 2, 4] {
            let counts: Vec<u32> = (1..=8).filter(|count| fits(first, *count)).collect();
            let domains = random.pick(&counts);
            let enough: Vec<u32> = [1, 2, 4, 8, 16]
                .into_iter()
                .filter(|n| *n >= domains)
                .collect();
            let n = random.pick(&enough);
            let frames = 1 + random.below(9) as u32;
            let mut board = accepted(random, n, frames, domains);
            let mut chosen = vec![first];
            for _ in 0..more {
                let fault = random.pick(&faults[place..]);
                if fits(fault, domains) {
                    chosen.push(fault);
                }
            }
            // 5 takes colours away and 6 adds some, so each is made before those tested ahead of it
            chosen.sort_by_key(|(number, _)| std::cmp::Reverse(*number));
            for (number, row) in chosen {
                spoil(random, &mut board, number, row);
            }
            let mut script = Script::new(board, empty_table(random, frames));
            let (number, row) = first;
            call_all(random, &mut script, Reply::Refused { number, row });
            scripts.push(script);
        }
    }
    scripts
}

/// A recolouring, as a rule one that moves frames, with a move list that is just long enough, too short
/// or too long.
pub fn any_recolour(random: &mut Random, script: &Script, domain: u32) -> Call {
    let grants = script.now.board.grants;
    let grant = grants.get(domain as usize).unwrap_or(&0xFFFF);
    let mut set = any_set(random, *grant);
    for _ in 0..random.below(6) {
        if script.moves(domain, set) == Some(0) {
            set = part_of(random, *grant);
        }
    }
    let room = match script.moves(domain, set) {
        None => random.pick(&[0, 2, 3, 12, 60]),
        Some(moves) => {
            let exact = 3 * moves;
            let short = [1, 2, 3, exact].map(|missing| exact.saturating_sub(missing));
            match random.below(8) {
                0 | 1 => random.pick(&short),
                2 => exact + 1 + random.below(40) as usize,
                3 => random.pick(&[LONGEST_LIST, exact + 3]),
                _ => exact,
            }
        }
    };
    Call::Recolour { domain, set, room }
}

/// 20 to 60 calls, faults most of all, so that tables fill up.
fn any_calls(random: &mut Random, script: &mut Script, pages: &[u32]) {
    for _ in 0..20 + random.below(41) {
        let domain = any_domain(random, script.start.board.domains);
        let held = script.held(domain);
        let page = match held.is_empty() || random.below(3) > 0 {
            true => any_page(random, pages),
            false => random.pick(&held).1,
        };
        let call = match random.below(16) {
            0..=2 => Call::Look { domain, page },
            3..=8 => Call::Fault { domain, page },
            9..=11 => Call::Release { domain, page },
            12 => Call::Colours { domain },
            _ => any_recolour(random, script, domain),
        };
        script.call(call);
    }
}

fn any_pages(random: &mut Random) -> Vec<u32> {
    let count = 2 + random.below(9);
    let mut pages = vec![0, PAGES - 1];
    pages.extend((0..count).map(|_| random.below(PAGES.into()) as u32));
    pages
}

/// An accepted board. F is now and then below N, and a multiple of it only by chance.
fn any_board(random: &mut Random) -> Board {
    let n = random.pick(&[1, 2, 4, 8, 8, 16, 16]);
    let domains = 1 + random.below(n.min(8)) as u32;
    let frames = match random.below(6) {
        0 => 1 + random.below(n),
        1 => 41 + random.below(120),
        _ => 1 + random.below(40),
    };
    accepted(random, n as u32, frames as u32, domains)
}

fn from_empty_tables(random: &mut Random) -> Vec<Script> {
    let mut scripts = Vec::new();
    for _ in 0..110 {
        let board = any_board(random);
        let table = empty_table(random, board.frames);
        let pages = any_pages(random);
        let mut script = Script::lowest_first(board, table);
        any_calls(random, &mut script, &pages);
        scripts.push(script);
    }
    scripts
}

fn from_any_tables(random: &mut Random) -> Vec<Script> {
    let mut scripts = Vec::new();
    for _ in 0..140 {
        let board = any_board(random);
        let pages = any_pages(random);
        let free = random.pick(&[5, 30, 50, 70]);
        let table = (0..board.frames)
            .map(|_| match random.below(100) < free {
                true => FREE,
                false => any_word(random, board.domains, &pages),
            })
            .collect();
        let mut script = Script::lowest_first(board, table);
        any_calls(random, &mut script, &pages);
        scripts.push(script);
    }
    scripts
}

/// Domain 0 holds most frames of one half of its grant and recolours to the other half and back, by
/// the thousand; then any calls.
fn long_tables(random: &mut Random) -> Vec<Script> {
    let mut scripts = Vec::new();
    for (n, frames, domains, grant) in [
        (2, 4096, 1, 0x3),
        (4, 4095, 2, 0xD),
        (8, 4093, 1, 0xFF),
        (16, 4096, 8, 0x4E3A),
        (16, 3001, 2, 0xFFF0),
        (1, 4096, 1, 0x1),
    ] {
        let mut board = accepted(random, n, frames, domains);
        board.grants[0] = grant;
        let rest = colours(!grant & ((1 << n) - 1));
        for domain in 1..domains as usize {
            board.grants[domain] = 1 << rest[domain - 1];
        }
        let held: u32 = colours(grant).iter().step_by(2).map(|c| 1 << c).sum();
        for domain in 0..domains as usize {
            board.active[domain] = board.grants[domain];
        }
        let pages = any_pages(random);
        let table = (0..frames)
            .map(|frame| match (held >> (frame % n) & 1, random.below(100)) {
                (_, 0) => any_word(random, domains, &pages),
                (1, 1..=70) => word(0, random.below(PAGES.into()) as u32) as u16,
                (1, 71..=80) => RESERVED,
                (0, 1..=15) => RESERVED,
                _ => FREE,
            })
            .collect();
        let mut script = Script::lowest_first(board, table);
        for set in [grant & !held, held, grant] {
            let Some(moves) = script.moves(0, set) else {
                continue;
            };
            let exact = 3 * moves;
            for room in [exact.saturating_sub(1), exact, LONGEST_LIST] {
                let domain = 0;
                script.call(Call::Recolour { domain, set, room });
            }
        }
        any_calls(random, &mut script, &pages);
        scripts.push(script);
    }
    scripts
}

#[cfg(test)]
mod tests {
    use super::*;

    /// Whatever a call can answer occurs, a thousand moves too, and the input stays small.
    #[test]
    fn every_kind_of_answer_occurs() {
        let set = set(crate::SEED);
        let text = String::from_utf8(set.stdout).unwrap();
        for kind in [
            "mapped ", "unmapped", "old ", "new ", "freed ", "active ", "quota ",
        ] {
            assert!(text.lines().any(|line| line.starts_with(kind)), "{kind}");
        }
        let moves: Vec<u32> = text
            .lines()
            .filter_map(|line| line.strip_prefix("moved ")?.parse().ok())
            .collect();
        assert!(moves.contains(&0) && moves.contains(&1));
        assert!(moves.iter().filter(|count| **count >= 1000).count() >= 3);
        assert!(set.stdin.len() < 1_300_000);
    }
}
