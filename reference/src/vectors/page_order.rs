//! Scripts in which it shows where the triples of a recolouring stand (document 02, No. 4): pages that rise, fall,
//! are alike or come as they may, on tables that hold a page in several frames. Each wrong reading of the order
//! leaves many of them with other lists, which is seen here, so that the vectors cannot stop telling the readings
//! apart.

use super::frames::{lent_list, Script, LONGEST_LIST};
use crate::model::frames::{word, Answer, Board, Call, DOMAINS, FREE, PAGES, QUOTA, RESERVED};
use crate::model::reply::Reply;
use crate::random::boards::{accepted, any_word, part_of};
use crate::random::Random;
use crate::readings::orders::{self, wrapped, Order, WRONG};

pub fn scripts(random: &mut Random) -> Vec<Script> {
    let mut scripts = examples();
    for (n, count) in [(1, 4), (2, 18), (4, 24), (8, 24), (16, 18)] {
        for number in 0..count {
            let pages = SEQUENCES[number % SEQUENCES.len()];
            scripts.push(small(random, n, pages));
        }
    }
    scripts.push(long(random, 4, Sequence::Falling));
    scripts.push(long(random, 16, Sequence::Any));
    scripts
}

/// The pages of a domain's frames, in ascending frame.
#[derive(Clone, Copy)]
enum Sequence {
    Rising,
    Falling,
    Equal,
    Any,
    Few,
    /// First and last pages, and others about which bytes and halves of the numbers end.
    Edges,
}

const SEQUENCES: [Sequence; 6] = [
    Sequence::Falling,
    Sequence::Any,
    Sequence::Few,
    Sequence::Edges,
    Sequence::Rising,
    Sequence::Equal,
];

const EDGES: [u32; 10] = [0, 0, 1, 255, 256, 511, 2047, 2048, PAGES - 1, PAGES - 1];

fn pages(random: &mut Random, sequence: Sequence, count: u32) -> Vec<u32> {
    let step = 1 + random.below(u64::from((PAGES - 1) / count)) as u32;
    let any = random.below(PAGES.into()) as u32;
    let few = [any, any, random.below(PAGES.into()) as u32, 0];
    (0..count)
        .map(|number| match sequence {
            Sequence::Rising => number * step,
            Sequence::Falling => PAGES - 1 - number * step,
            Sequence::Equal => any,
            Sequence::Any => random.below(PAGES.into()) as u32,
            Sequence::Few => random.pick(&few),
            Sequence::Edges => random.pick(&EDGES),
        })
        .collect()
}

/// A recolouring of domain 0 with this list afterwards, where it was lent with so many words.
fn listed(script: &mut Script, set: u32, room: usize, triples: &[[u16; 3]]) {
    let call = Call::Recolour {
        domain: 0,
        set,
        room,
    };
    let mut list = lent_list(room);
    let answer = Reply::Answer(Answer::Moved(triples.len()));
    assert_eq!(script.now.clone().call(&call, &mut list), answer);
    let words = 3 * triples.len();
    assert_eq!(list[..words], *triples.as_flattened());
    assert_eq!(list[words..], lent_list(room)[words..]);
    assert_eq!(script.call(call), answer);
}

/// Recolourings with the lists that the tests of the model work out, and one from an empty table: the faults take
/// frames 0, 1, 4, 5 and 8, of which the odd ones, for pages 3 and 0, have to move to frames 12 and 16.
fn examples() -> Vec<Script> {
    let board = |frames| {
        let mut board = Board {
            colours: 4,
            frames,
            domains: 1,
            grants: [0; DOMAINS],
            active: [0; DOMAINS],
            quotas: [QUOTA; DOMAINS],
        };
        (board.grants[0], board.active[0]) = (0xF, 0xF);
        board
    };
    let full = RESERVED;
    let table = vec![8, 1, 0, 6, 0, 2, 0, full, 7, 0, 3, 0];
    let mut crowded = Script::new(board(12), table);
    let triples = [[5, 3, 9], [6, 8, 6], [7, 0, 2]];
    listed(&mut crowded, 0x6, 9, &triples);

    let table = vec![
        4096, 0, full, 4096, 1, 0, 4097, 1, 0, 4096, 0, full, 0, full, 0, 32_769,
    ];
    let mut equal = Script::new(board(16), table);
    let triples = [[0, 4, 14], [0, 7, 5], [4095, 0, 10], [4095, 3, 1]];
    listed(&mut equal, 0x6, 14, &triples);

    let mut two = board(20);
    two.active[0] = 0x3;
    let mut empty = Script::new(two, vec![FREE; 20]);
    for (page, frame) in [(9, 0), (3, 1), (4095, 4), (0, 5), (1, 8)] {
        let fault = Call::Fault { domain: 0, page };
        assert_eq!(empty.call(fault), Reply::Answer(Answer::New(frame)));
    }
    listed(&mut empty, 0x1, 7, &[[0, 5, 16], [3, 1, 12]]);
    vec![crowded, equal, empty]
}

/// A board on which some domain has several colours, if there are several, and that domain.
fn board_and_domain(random: &mut Random, n: u32, frames: u32) -> (Board, u32) {
    loop {
        let domains = 1 + random.below(u64::from(n / 2).clamp(1, 3)) as u32;
        let board = accepted(random, n, frames, domains);
        let domain = random.below(domains.into()) as u32;
        if n == 1 || board.grants[domain as usize].count_ones() > 1 {
            return (board, domain);
        }
    }
}

/// A table on which a recolouring to the set has much to move, with words of all kinds between.
fn table(random: &mut Random, board: &Board, domain: u32, set: u32, pages: &[u32]) -> Vec<u16> {
    let mut own = pages.iter().cycle();
    (0..board.frames)
        .map(|frame| {
            let inside = set >> (frame % board.colours) & 1 == 1;
            // percent of the domain's words, and of free frames
            let (held, free) = if inside { (15, 70) } else { (60, 15) };
            match random.below(100) {
                share if share < held => {
                    let page = own.next().expect("there is a page");
                    word(domain, *page) as u16
                }
                share if share < held + free => FREE,
                _ => any_word(random, board.domains, pages),
            }
        })
        .collect()
}

/// A recolouring whose list is a word too short, and the same with one that is long enough.
fn recolour(random: &mut Random, script: &mut Script, domain: u32, set: u32) {
    let exact = 3 * script.moves(domain, set).unwrap_or(0);
    let more = random.pick(&[0, 0, 1, 2, 3, 7, 40]);
    if exact > 0 && random.below(2) == 0 {
        let room = exact - 1;
        let refused = script.call(Call::Recolour { domain, set, room });
        assert_eq!(refused, Reply::refused(13));
    }
    let room = exact + more;
    script.call(Call::Recolour { domain, set, room });
}

/// Of some parts of the grant, the one to which a recolouring makes the most moves.
fn most_moves(random: &mut Random, script: &Script, domain: u32) -> u32 {
    let grant = script.now.board.grants[domain as usize];
    let parts: Vec<u32> = (0..6).map(|_| part_of(random, grant)).collect();
    parts
        .into_iter()
        .max_by_key(|set| script.moves(domain, *set))
        .expect("there are some")
}

/// Two recolourings of a domain that make several moves each, if there are several colours, with faults, releases
/// and looks between; and one to its grant.
fn small(random: &mut Random, n: u32, sequence: Sequence) -> Script {
    let frames = 3 * n + 2 + random.below(u64::from(3 * n) + 9) as u32;
    let mut script = loop {
        let (board, domain) = board_and_domain(random, n, frames);
        let set = part_of(random, board.grants[domain as usize]);
        let pages = pages(random, sequence, frames);
        let table = table(random, &board, domain, set, &pages);
        let mut script = Script::new(board, table);
        let moves = script.moves(domain, set);
        if n == 1 || moves.is_some_and(|moves| moves > 2) {
            recolour(random, &mut script, domain, set);
            break script;
        }
    };
    let domain = script.calls[0].domain();
    for _ in 0..3 {
        if let held @ [_, ..] = script.held(domain).as_slice() {
            let (_, page) = random.pick(held);
            script.call(Call::Look { domain, page });
            script.call(Call::Release { domain, page });
        }
        let page = random.below(PAGES.into()) as u32;
        script.call(Call::Fault { domain, page });
    }
    for other in 0..script.start.board.domains {
        let set = most_moves(random, &script, other);
        recolour(random, &mut script, other, set);
    }
    let grant = script.start.board.grants[domain as usize];
    recolour(random, &mut script, domain, grant);
    script
}

/// Domain 0 holds nearly half of all frames, in half of the colours, and recolours to the other half and back.
fn long(random: &mut Random, n: u32, sequence: Sequence) -> Script {
    let mut board = accepted(random, n, 4096, 1);
    let all = (1 << n) - 1;
    (board.grants[0], board.active[0]) = (all, all);
    let set = all & 0x6969;
    let pages: Vec<u32> = match sequence {
        // as near to each other as the pages of so many frames are
        Sequence::Falling => (0..2048).map(|number| PAGES - 1 - 2 * number).collect(),
        _ => pages(random, sequence, 2048),
    };
    let mut own = pages.iter();
    let table = (0..4096)
        .map(|frame| {
            let inside = set >> (frame % n) & 1 == 1;
            match random.below(100) {
                0 => any_word(random, 1, &[0, 7, PAGES - 1]),
                1 => FREE,
                _ if inside => FREE,
                _ => word(0, *own.next().expect("a page for half of the frames")) as u16,
            }
        })
        .collect();
    let mut script = Script::new(board, table);
    for (set, more) in [(set, LONGEST_LIST), (all & !set, 0)] {
        let exact = 3 * script.moves(0, set).expect("half of the frames are free");
        let room = (exact + more).min(LONGEST_LIST);
        let domain = 0;
        script.call(Call::Recolour { domain, set, room });
    }
    script
}

/// Whether the reading answers all calls of the script as the model does, with the same table and lists.
fn alike(script: &Script, order: Order) -> bool {
    let mut model = script.start.clone();
    let mut other = script.start.clone();
    script.calls.iter().all(|call| {
        let [mut list, mut other_list] = [lent_list(call.room()), lent_list(call.room())];
        let reply = model.call(call, &mut list);
        let other_reply = orders::call(&mut other, call, &mut other_list, order);
        reply == other_reply && model == other && list == other_list
    })
}

/// Each wrong reading answers many scripts otherwise, and places that wrap at 256 some.
pub fn assert_told_apart(scripts: &[Script]) {
    for (name, order) in WRONG {
        let others = scripts.iter().filter(|script| !alike(script, order));
        assert!(others.count() >= 15, "{name}");
    }
    let others = scripts.iter().filter(|script| !alike(script, wrapped));
    assert!(others.count() >= 2);
}
