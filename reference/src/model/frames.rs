//! The board, the frame table and its calls: document 01, "Board and frame table", with refusals 2 to 14 of
//! "Refusals in the order tested", and of document 02 the choice of a free frame of No. 7, the order of moves of
//! No. 4 and the quotas of No. 6 with refusals 26 to 28; taking back has a file of its own. Each call is defined for
//! every board, table and number.

use std::collections::VecDeque;
use std::fmt;

use crate::model::cache::{self, is_count};
use crate::model::reply::Reply;
use crate::model::taking_back::take_back;

pub const DOMAINS: usize = 8;
pub const FRAMES: u32 = 4096;
pub const PAGES: u32 = 4096;
/// The highest quota, which each domain has at first.
pub const QUOTA: u32 = 4096;

pub const FREE: u16 = 0;
/// Held for the hypervisor; the only word besides 0 in an empty table.
pub const RESERVED: u16 = 65_535;

/// Grants, active sets and quotas of domains at or beyond the count are neither read nor changed.
#[derive(Clone, Debug, PartialEq, Eq)]
pub struct Board {
    pub colours: u32,
    pub frames: u32,
    pub domains: u32,
    pub grants: [u32; DOMAINS],
    pub active: [u32; DOMAINS],
    pub quotas: [u32; DOMAINS],
}

#[derive(Clone, Copy, Debug, PartialEq, Eq)]
pub enum Answer {
    Mapped(usize),
    Unmapped,
    Old(usize),
    New(usize),
    Freed(usize),
    Active { set: u32, quota: u32 },
    Moved(usize),
    Quota(u32),
}

impl fmt::Display for Answer {
    fn fmt(&self, f: &mut fmt::Formatter) -> fmt::Result {
        match self {
            Answer::Mapped(frame) => write!(f, "mapped {frame}"),
            Answer::Unmapped => write!(f, "unmapped"),
            Answer::Old(frame) => write!(f, "old {frame}"),
            Answer::New(frame) => write!(f, "new {frame}"),
            Answer::Freed(frame) => write!(f, "freed {frame}"),
            Answer::Active { set, quota } => write!(f, "active {set} quota {quota}"),
            Answer::Moved(count) => write!(f, "moved {count}"),
            Answer::Quota(quota) => write!(f, "quota {quota}"),
        }
    }
}

/// The word of a frame that the domain holds for the page. In 64 bits, where no two pairs of 32-bit
/// numbers wrap to one word of the table.
pub fn word(domain: u32, page: u32) -> u64 {
    1 + u64::from(PAGES) * u64::from(domain) + u64::from(page)
}

/// The page for which the domain holds a frame with this word.
pub fn page_held(domain: u32, held: u16) -> Option<u16> {
    let page = u64::from(held).checked_sub(word(domain, 0))?;
    (page < u64::from(PAGES)).then_some(page as u16)
}

pub fn has(set: u32, colour: u32) -> bool {
    set >> colour & 1 == 1
}

/// Whether the set is 0 or has a bit outside the limit.
pub fn unfit(set: u32, limit: u32) -> bool {
    set == 0 || (0..32).any(|c| has(set, c) && !has(limit, c))
}

/// Refusals 2 to 7, which accept a board with its table, if one is lent: one number is tested over all
/// domains before the next, and the row is the lowest domain at fault. Of two grants that meet, 6 names
/// the lower.
pub fn refused_board(board: &Board, table: Option<&[u16]>) -> Option<(u32, u32)> {
    if !is_count(board.colours.into()) {
        return Some((2, 0));
    }
    let misfit = |table: &[u16]| table.len() != board.frames as usize;
    if board.frames == 0 || board.frames > FRAMES || table.is_some_and(misfit) {
        return Some((3, 0));
    }
    if board.domains == 0 || board.domains as usize > DOMAINS {
        return Some((4, 0));
    }
    let all = (0..board.colours).map(|c| 1 << c).sum();
    let grant = |d: u32| board.grants[d as usize];
    let active = |d: u32| board.active[d as usize];
    let domains = || 0..board.domains;
    let shared = |d: &u32| domains().any(|e| e != *d && grant(e) & grant(*d) != 0);
    if let Some(row) = domains().find(|d| unfit(grant(*d), all)) {
        return Some((5, row));
    }
    if let Some(row) = domains().find(shared) {
        return Some((6, row));
    }
    let row = domains().find(|d| unfit(active(*d), grant(*d)))?;
    Some((7, row))
}

/// Whether no domain may have this quota: it is 0 or above 4,096.
pub fn no_quota(quota: u32) -> bool {
    quota == 0 || quota > QUOTA
}

/// Refusals 2 to 7, 26 and 8, with which each call begins. Admission does not test 26, so that it is not of
/// `refused_board`.
pub fn refused_caller(board: &Board, table: &[u16], domain: u32) -> Option<Reply<Answer>> {
    if let Some((number, row)) = refused_board(board, Some(table)) {
        return Some(Reply::Refused { number, row });
    }
    let quotas = &board.quotas[..board.domains as usize];
    if quotas.iter().any(|quota| no_quota(*quota)) {
        return Some(Reply::refused(26));
    }
    (domain >= board.domains).then_some(Reply::refused(8))
}

/// Refusals 2 to 7, 26, 8 and 10.
fn refused_page(board: &Board, table: &[u16], domain: u32, page: u32) -> Option<Reply<Answer>> {
    refused_caller(board, table, domain).or((page >= PAGES).then_some(Reply::refused(10)))
}

/// The lowest frame with the domain's word for the page, whatever its colour.
fn mapped(table: &[u16], domain: u32, page: u32) -> Option<usize> {
    table
        .iter()
        .position(|held| u64::from(*held) == word(domain, page))
}

/// How many frames the domain holds, for whatever pages and of whatever colours: a page in two frames counts twice.
pub fn frames_held(table: &[u16], domain: u32) -> usize {
    let own = |held: &&u16| page_held(domain, **held).is_some();
    table.iter().filter(own).count()
}

/// What the choice of a free frame goes by.
struct Colours {
    /// How many frames of each colour the domain holds, for whatever pages: a page in two frames counts twice.
    held: Vec<usize>,
    /// The free frames of each colour, ascending.
    free: Vec<VecDeque<usize>>,
}

impl Colours {
    fn new(board: &Board, table: &[u16], domain: u32) -> Self {
        let n = board.colours as usize;
        let mut colours = Colours {
            held: vec![0; n],
            free: vec![VecDeque::new(); n],
        };
        for (frame, held) in table.iter().enumerate() {
            if *held == FREE {
                colours.free[frame % n].push_back(frame);
            }
            if page_held(domain, *held).is_some() {
                colours.held[frame % n] += 1;
            }
        }
        colours
    }

    /// Document 02, No. 7: "The free frame chosen shall have the active colour in which the domain holds the
    /// fewest frames among colours with a free frame, the lowest colour on a tie, then the lowest frame." It is
    /// the domain's from then on, and counts.
    fn take(&mut self, set: u32) -> Option<usize> {
        let colours = cache::colours(set).into_iter().map(|c| c as usize);
        let colour = colours
            .filter(|c| !self.free[*c].is_empty())
            .min_by_key(|c| (self.held[*c], *c))?;
        self.held[colour] += 1;
        self.free[colour].pop_front()
    }

    /// How many free frames have a colour in the set.
    fn free_in(&self, set: u32) -> usize {
        let colours = cache::colours(set).into_iter();
        colours.map(|c| self.free[c as usize].len()).sum()
    }
}

pub fn look(board: &Board, table: &[u16], domain: u32, page: u32) -> Reply<Answer> {
    if let Some(refusal) = refused_page(board, table, domain, page) {
        return refusal;
    }
    match mapped(table, domain, page) {
        Some(frame) => Reply::Answer(Answer::Mapped(frame)),
        None => Reply::Answer(Answer::Unmapped),
    }
}

pub fn fault(board: &Board, table: &mut [u16], domain: u32, page: u32) -> Reply<Answer> {
    if let Some(refusal) = refused_page(board, table, domain, page) {
        return refusal;
    }
    if let Some(frame) = mapped(table, domain, page) {
        return Reply::Answer(Answer::Old(frame));
    }
    if frames_held(table, domain) >= board.quotas[domain as usize] as usize {
        return Reply::refused(28);
    }
    match Colours::new(board, table, domain).take(board.active[domain as usize]) {
        None => Reply::refused(12),
        Some(frame) => {
            table[frame] = word(domain, page) as u16;
            Reply::Answer(Answer::New(frame))
        }
    }
}

pub fn release(board: &Board, table: &mut [u16], domain: u32, page: u32) -> Reply<Answer> {
    if let Some(refusal) = refused_page(board, table, domain, page) {
        return refusal;
    }
    match mapped(table, domain, page) {
        None => Reply::refused(14),
        Some(frame) => {
            table[frame] = FREE;
            Reply::Answer(Answer::Freed(frame))
        }
    }
}

pub fn colours(board: &Board, table: &[u16], domain: u32) -> Reply<Answer> {
    match refused_caller(board, table, domain) {
        Some(refusal) => refusal,
        None => Reply::Answer(Answer::Active {
            set: board.active[domain as usize],
            quota: board.quotas[domain as usize],
        }),
    }
}

/// Document 02, No. 7: "In recolouring, the targets are chosen so one by one in the new set, counting frames
/// already moved; frames vacated are still not used." The frames to move go in ascending order. No. 4: "The
/// triples shall stand by page, equal pages by old frame. Which frame goes where does not change."
pub fn recolour(
    board: &mut Board,
    table: &mut [u16],
    domain: u32,
    set: u32,
    moves: &mut [u16],
) -> Reply<Answer> {
    if let Some(refusal) = refused_caller(board, table, domain) {
        return refusal;
    }
    if unfit(set, board.grants[domain as usize]) {
        return Reply::refused(9);
    }
    // both are of the table before any move, so no frame vacated here becomes a target
    let leaving: Vec<(usize, u16)> = (0..table.len())
        .filter(|frame| !has(set, *frame as u32 % board.colours))
        .filter_map(|frame| Some((frame, page_held(domain, table[frame])?)))
        .collect();
    let mut colours = Colours::new(board, table, domain);
    if leaving.len() > colours.free_in(set) {
        return Reply::refused(12);
    }
    if moves.len() < 3 * leaving.len() {
        return Reply::refused(13);
    }
    let mut triples = Vec::new();
    for (old, page) in leaving {
        let new = colours.take(set).expect("12 left enough free frames");
        table[new] = table[old];
        table[old] = FREE;
        triples.push([page, old as u16, new as u16]);
    }
    // after all targets are chosen, so that the order has no part in the choice
    triples.sort_by_key(|[page, old, _]| (*page, *old));
    moves[..3 * triples.len()].copy_from_slice(triples.as_flattened());
    board.active[domain as usize] = set;
    Reply::Answer(Answer::Moved(triples.len()))
}

/// Document 02, No. 6: "A new call of the domain sets and answers it; this call changes the lent board record in
/// its own place."
pub fn set_quota(board: &mut Board, table: &[u16], domain: u32, quota: u32) -> Reply<Answer> {
    if let Some(refusal) = refused_caller(board, table, domain) {
        return refusal;
    }
    if no_quota(quota) || (quota as usize) < frames_held(table, domain) {
        return Reply::refused(27);
    }
    board.quotas[domain as usize] = quota;
    Reply::Answer(Answer::Quota(quota))
}

/// One of the calls with its arguments. `room` is the length of the move list that a recolouring is lent to write,
/// and `list` what a taking back is lent to read.
#[derive(Clone, Debug, PartialEq, Eq)]
pub enum Call {
    Look {
        domain: u32,
        page: u32,
    },
    Fault {
        domain: u32,
        page: u32,
    },
    Release {
        domain: u32,
        page: u32,
    },
    Colours {
        domain: u32,
    },
    Recolour {
        domain: u32,
        set: u32,
        room: usize,
    },
    SetQuota {
        domain: u32,
        quota: u32,
    },
    TakeBack {
        domain: u32,
        set: u32,
        list: Vec<u16>,
    },
}

impl Call {
    pub fn domain(&self) -> u32 {
        match *self {
            Call::Look { domain, .. }
            | Call::Fault { domain, .. }
            | Call::Release { domain, .. }
            | Call::Colours { domain }
            | Call::Recolour { domain, .. }
            | Call::SetQuota { domain, .. }
            | Call::TakeBack { domain, .. } => domain,
        }
    }

    /// The length of the list that the call is lent to write.
    pub fn room(&self) -> usize {
        match *self {
            Call::Recolour { room, .. } => room,
            _ => 0,
        }
    }
}

/// What each call of a history leaves to the next.
#[derive(Clone, Debug, PartialEq, Eq)]
pub struct State {
    pub board: Board,
    pub table: Vec<u16>,
}

impl State {
    /// The call's answer; `moves` is the move list that it is lent to write.
    pub fn call(&mut self, call: &Call, moves: &mut [u16]) -> Reply<Answer> {
        let State { board, table } = self;
        match *call {
            Call::Look { domain, page } => look(board, table, domain, page),
            Call::Fault { domain, page } => fault(board, table, domain, page),
            Call::Release { domain, page } => release(board, table, domain, page),
            Call::Colours { domain } => colours(board, table, domain),
            Call::Recolour { domain, set, .. } => recolour(board, table, domain, set, moves),
            Call::SetQuota { domain, quota } => set_quota(board, table, domain, quota),
            Call::TakeBack {
                domain,
                set,
                ref list,
            } => take_back(board, table, domain, set, list),
        }
    }
}

#[cfg(test)]
mod tests {
    use super::*;

    fn recorder() -> State {
        let mut grants = [0; DOMAINS];
        grants[..2].copy_from_slice(&[0x3, 0xC]);
        let board = Board {
            colours: 4,
            frames: 8,
            domains: 2,
            grants,
            active: grants,
            quotas: [QUOTA; DOMAINS],
        };
        let table = vec![FREE; 8];
        State { board, table }
    }

    #[test]
    fn example_m_of_document_01() {
        let State {
            mut board,
            mut table,
        } = recorder();
        let new = |frame| Reply::Answer(Answer::New(frame));
        assert_eq!(fault(&board, &mut table, 0, 9), new(0));
        assert_eq!(fault(&board, &mut table, 1, 0), new(2));
        assert_eq!(fault(&board, &mut table, 0, 1), new(1));
        let mut moves = [7; 5];
        assert_eq!(
            recolour(&mut board, &mut table, 0, 0x1, &mut moves),
            Reply::Answer(Answer::Moved(1))
        );
        assert_eq!(moves, [1, 1, 4, 7, 7]);
        assert_eq!(table, [10, 0, 4097, 0, 2, 0, 0, 0]);
        assert_eq!(board.active[..2], [0x1, 0xC]);
        assert_eq!(fault(&board, &mut table, 0, 2), Reply::refused(12));
        assert_eq!(table, [10, 0, 4097, 0, 2, 0, 0, 0]);
    }

    #[test]
    fn example_of_the_limits() {
        let State {
            mut board,
            mut table,
        } = recorder();
        assert_eq!(
            look(&board, &table, 0, 4095),
            Reply::Answer(Answer::Unmapped)
        );
        assert_eq!(look(&board, &table, 0, 4096), Reply::refused(10));
        let none = recolour(&mut board, &mut table, 0, 0x2, &mut []);
        assert_eq!(none, Reply::Answer(Answer::Moved(0)));
        assert_eq!(board.active[0], 0x2);
        assert_eq!(
            fault(&board, &mut table, 0, 4095),
            Reply::Answer(Answer::New(1))
        );
        assert_eq!(
            look(&board, &table, 0, 4095),
            Reply::Answer(Answer::Mapped(1))
        );
        let before = (board.clone(), table.clone());
        let short = recolour(&mut board, &mut table, 0, 0x1, &mut [0; 2]);
        assert_eq!(short, Reply::refused(13));
        assert_eq!((board, table), before);
    }

    /// A board of one domain with all colours, and this active set.
    fn single(colours: u32, frames: u32, active: u32) -> Board {
        let mut board = Board {
            colours,
            frames,
            domains: 1,
            grants: [0; DOMAINS],
            active: [0; DOMAINS],
            quotas: [QUOTA; DOMAINS],
        };
        board.grants[0] = (1 << colours) - 1;
        board.active[0] = active;
        board
    }

    fn new_frame(board: &Board, table: &mut [u16], page: u32) -> Option<usize> {
        match fault(board, table, 0, page) {
            Reply::Answer(Answer::New(frame)) => Some(frame),
            reply => {
                assert_eq!(reply, Reply::refused(12));
                None
            }
        }
    }

    /// Frames 0 to 11 have the colours 0, 1, 2, 3 three times over. Six faults take colours 0, 1, 2 and again
    /// 0, 1, 2. Then frame 4 is all that is left in colour 0, nothing in colour 1, frames 2 and 6 in colour 2:
    /// the first fault goes to colour 1, whose lowest free frame is 1; the second finds 1, 1, 2 and takes the
    /// lower colour's frame 0; the third 2, 1, 2, and colour 1 has frame 5. Lowest first, they had 0, 1, 5.
    #[test]
    fn crowded_faults() {
        let board = single(4, 12, 0x7);
        let mut table = vec![FREE; 12];
        for (page, frame) in (0..).zip([0, 1, 2, 4, 5, 6]) {
            assert_eq!(new_frame(&board, &mut table, page), Some(frame));
        }
        for (page, frame) in [(0, 0), (1, 1), (4, 5)] {
            assert_eq!(
                release(&board, &mut table, 0, page),
                Reply::Answer(Answer::Freed(frame))
            );
        }
        for (page, frame) in (6..).zip([1, 0, 5]) {
            assert_eq!(new_frame(&board, &mut table, page), Some(frame));
        }
        assert_eq!(table, [8, 7, 3, 0, 4, 9, 6, 0, 0, 0, 0, 0]);
    }

    /// The new set has colours 1 and 2. In colour 1 the domain holds frames 1 and 5, and 9 is free; in colour 2
    /// it holds frame 10, and 2 and 6 are free. Frames 0, 3 and 8 have to move. Frame 0: 2 in colour 1 and 1 in
    /// colour 2, so it goes to colour 2, frame 2. Frame 3: 2 and 2, so it goes to the lower colour, which has
    /// frame 9 alone. Frame 8: 3 and 2, so it goes to frame 6. Lowest first, the targets were 2, 6, 9. Frames 0,
    /// 3 and 8 are of the pages 7, 5 and 6.
    #[test]
    fn crowded_recolouring() {
        let mut board = single(4, 12, 0xF);
        let mut table = vec![8, 1, 0, 6, 0, 2, 0, RESERVED, 7, 0, 3, 0];
        let mut moves = [0; 9];
        assert_eq!(
            recolour(&mut board, &mut table, 0, 0x6, &mut moves),
            Reply::Answer(Answer::Moved(3))
        );
        assert_eq!(moves, [5, 3, 9, 6, 8, 6, 7, 0, 2]);
        assert_eq!(table, [0, 1, 8, 0, 0, 2, 7, RESERVED, 0, 6, 3, 0]);
        assert_eq!(board.active[0], 0x6);
    }

    /// One frame is held in either colour, and the lowest free frame is the higher colour's.
    #[test]
    fn the_lowest_colour_goes_before_the_lowest_frame() {
        let board = single(2, 4, 0x3);
        let mut table = [1, 0, 0, 2];
        assert_eq!(new_frame(&board, &mut table, 9), Some(2));
    }

    /// Page 5 has frames 0 and 2, so colour 0 has two of the domain's frames and colour 1 one.
    #[test]
    fn duplicates_count_each() {
        let board = single(2, 6, 0x3);
        let mut table = [6, 1, 6, 0, 0, 0];
        assert_eq!(new_frame(&board, &mut table, 9), Some(3));
        // two and two
        assert_eq!(new_frame(&board, &mut table, 10), Some(4));
    }

    /// Colour 0 has words of another domain, of nobody and for the hypervisor, and colour 1 the domain's
    /// words for its first and its last page.
    #[test]
    fn only_own_frames_count() {
        let board = single(2, 8, 0x3);
        let mut table = [4097, 1, RESERVED, 4096, 0, 0, 32_769, 0];
        assert_eq!(new_frame(&board, &mut table, 9), Some(4));
        // colour 0 has no free frame left
        assert_eq!(new_frame(&board, &mut table, 10), Some(5));
    }

    /// Nothing is held in colour 0, whose frames are reserved, nor in colour 3, which is not active. Colour 1
    /// has the fewest frames of the others and no free one.
    #[test]
    fn a_colour_without_a_free_frame_is_no_candidate() {
        let board = single(4, 12, 0x7);
        let full = RESERVED;
        let mut table = [full, 1, 2, 0, full, full, 3, 0, full, full, 0, 0];
        assert_eq!(new_frame(&board, &mut table, 9), Some(10));
        assert_eq!(new_frame(&board, &mut table, 10), None);
    }

    /// The colour with the fewest frames runs out on the way: frames 2, 6, 10 and 14 go to frame 1, which is
    /// the only free one of colour 1, and then to colour 0, of which the domain holds one frame from the start.
    #[test]
    fn a_colour_runs_out_in_recolouring() {
        let mut board = single(4, 16, 0xC);
        let full = RESERVED;
        let mut table = vec![0, 0, 2, 0, 1, full, 3, 0, 0, full, 4, 0, 0, full, 5, 0];
        let mut moves = [0; 12];
        assert_eq!(
            recolour(&mut board, &mut table, 0, 0x3, &mut moves),
            Reply::Answer(Answer::Moved(4))
        );
        assert_eq!(moves, [1, 2, 1, 2, 6, 0, 3, 10, 8, 4, 14, 12]);
        let after = [3, 2, 0, 0, 1, full, 0, 0, 4, full, 0, 0, 5, full, 0, 0];
        assert_eq!(table, after);
    }

    /// The new set has colours 1 and 2. Colour 1 has the free frames 1 and 5, colour 2 the free frames 10 and 14,
    /// and the domain holds frame 9 there. Frames 0, 3, 4 and 7 have to move, of the pages 4,095, 4,095, 0 and 0.
    /// Frame 0: 1 in colour 1 and 0 in colour 2, so it goes to frame 10. Frame 3: 1 and 1, frame 1. Frame 4: 2 and
    /// 1, frame 14. Frame 7: colour 2 has none left, frame 5. Page 0 goes first, and each page's two stand by old
    /// frame, though their new frames fall.
    #[test]
    fn equal_pages_stand_by_old_frame() {
        let mut board = single(4, 16, 0xF);
        let full = RESERVED;
        let mut table = vec![
            4096, 0, full, 4096, 1, 0, 4097, 1, 0, 4096, 0, full, 0, full, 0, 32_769,
        ];
        let mut moves = [9; 14];
        assert_eq!(
            recolour(&mut board, &mut table, 0, 0x6, &mut moves),
            Reply::Answer(Answer::Moved(4))
        );
        let triples = [0, 4, 14, 0, 7, 5, 4095, 0, 10, 4095, 3, 1];
        assert_eq!(moves[..12], triples);
        assert_eq!(moves[12..], [9, 9]);
        let after = [
            0, 4096, full, 0, 0, 1, 4097, 0, 0, 4096, 4096, full, 0, full, 1, 32_769,
        ];
        assert_eq!(table, after);
    }

    fn told(set: u32, quota: u32) -> Reply<Answer> {
        Reply::Answer(Answer::Active { set, quota })
    }

    fn quota(quota: u32) -> Reply<Answer> {
        Reply::Answer(Answer::Quota(quota))
    }

    /// Domain 0 of the recorder's board gets frames 0 and 1 and then reaches its quota of 2, with frames 4 and 5 still
    /// free. A mapped page is answered, domain 1 gets frames, and a frame that is released may be had again.
    #[test]
    fn a_quota_is_reached() {
        let State {
            mut board,
            mut table,
        } = recorder();
        assert_eq!(colours(&board, &table, 0), told(0x3, 4096));
        assert_eq!(set_quota(&mut board, &table, 0, 2), quota(2));
        assert_eq!(board.quotas, [2, 4096, 4096, 4096, 4096, 4096, 4096, 4096]);
        assert_eq!(new_frame(&board, &mut table, 9), Some(0));
        assert_eq!(new_frame(&board, &mut table, 1), Some(1));
        assert_eq!(fault(&board, &mut table, 0, 2), Reply::refused(28));
        assert_eq!(table, [10, 2, 0, 0, 0, 0, 0, 0]);
        let old = Reply::Answer(Answer::Old(1));
        assert_eq!(fault(&board, &mut table, 0, 1), old);
        let new = Reply::Answer(Answer::New(2));
        assert_eq!(fault(&board, &mut table, 1, 2), new);
        assert_eq!(colours(&board, &table, 0), told(0x3, 2));
        assert_eq!(colours(&board, &table, 1), told(0xC, 4096));
        let freed = Reply::Answer(Answer::Freed(0));
        assert_eq!(release(&board, &mut table, 0, 9), freed);
        assert_eq!(new_frame(&board, &mut table, 2), Some(0));
        assert_eq!(fault(&board, &mut table, 0, 9), Reply::refused(28));
    }

    /// Three frames are held of the eight. The lowest quota that is taken is 3, the highest 4,096, beyond F.
    #[test]
    fn quotas_that_are_taken() {
        let State { mut board, .. } = recorder();
        let table = [1, 2, 0, 0, 3, 0, 0, 0];
        for asked in [3, 4, 8, 9, 4095, 4096, 4096, 3] {
            assert_eq!(set_quota(&mut board, &table, 0, asked), quota(asked));
            assert_eq!(board.quotas[0], asked);
        }
        let before = board.clone();
        for asked in [0, 1, 2, 4097, 65_536, 65_539, u32::MAX] {
            let refused = set_quota(&mut board, &table, 0, asked);
            assert_eq!(refused, Reply::refused(27));
            assert_eq!(board, before);
        }
        // nothing is held: 1 is the lowest
        assert_eq!(set_quota(&mut board, &table, 1, 0), Reply::refused(27));
        assert_eq!(set_quota(&mut board, &table, 1, 1), quota(1));
        assert_eq!(board.quotas[..3], [3, 1, 4096]);
    }

    /// Domain 0 has colours 0 and 1, of which 0 is active, and holds six frames: 0 and 4 for page 5, 1 in a colour
    /// that is not active, 2 and 3 in colours of domain 1 for its last page and page 7, and 8. Not of it are page 0 of
    /// domain 1 in frame 5, the words of domain 7 and of nobody in frames 6 and 7, and the reserved frame 9.
    #[test]
    fn frames_held_are_all_frames() {
        let State { mut board, .. } = recorder();
        board.frames = 16;
        board.active[0] = 0x1;
        let mut table = vec![6, 1, 4096, 8, 6, 4097, 32_768, 32_769, 2, RESERVED];
        table.resize(16, FREE);
        assert_eq!(frames_held(&table, 0), 6);
        assert_eq!(frames_held(&table, 1), 1);
        assert_eq!(frames_held(&table, 7), 1);
        assert_eq!(set_quota(&mut board, &table, 0, 5), Reply::refused(27));
        assert_eq!(set_quota(&mut board, &table, 0, 6), quota(6));
        assert_eq!(fault(&board, &mut table, 0, 2), Reply::refused(28));
        assert_eq!(set_quota(&mut board, &table, 0, 7), quota(7));
        assert_eq!(new_frame(&board, &mut table, 2), Some(12));
        assert_eq!(fault(&board, &mut table, 0, 3), Reply::refused(28));
    }

    /// Four frames are held, and the quota is 2, as no history from an empty table leaves it.
    #[test]
    fn held_above_the_quota() {
        let mut board = single(2, 8, 0x3);
        board.quotas[0] = 2;
        let mut table = vec![1, 2, 3, 4, 0, 0, 0, 0];
        assert_eq!(fault(&board, &mut table, 0, 9), Reply::refused(28));
        let old = Reply::Answer(Answer::Old(3));
        assert_eq!(fault(&board, &mut table, 0, 3), old);
        for asked in [1, 2, 3] {
            let refused = set_quota(&mut board, &table, 0, asked);
            assert_eq!(refused, Reply::refused(27));
        }
        assert_eq!(set_quota(&mut board.clone(), &table, 0, 4), quota(4));
        let mut moves = [0; 6];
        assert_eq!(
            recolour(&mut board, &mut table, 0, 0x1, &mut moves),
            Reply::Answer(Answer::Moved(2))
        );
        assert_eq!(moves, [1, 1, 4, 3, 3, 6]);
        assert_eq!(table, [1, 0, 3, 0, 2, 0, 4, 0]);
        assert_eq!(colours(&board, &table, 0), told(0x1, 2));
        let mapped = Reply::Answer(Answer::Mapped(4));
        assert_eq!(look(&board, &table, 0, 1), mapped);
        let freed = Reply::Answer(Answer::Freed(4));
        assert_eq!(release(&board, &mut table, 0, 1), freed);
    }

    /// All frames of colour 0 are held, which alone is active, and the quota is reached: 28 goes before 12, and 10
    /// and 8 before 28. With a frame more, 12 is left.
    #[test]
    fn quota_refusals_in_order() {
        let mut board = single(2, 4, 0x1);
        board.quotas[0] = 2;
        let mut table = [1, 0, 2, 0];
        assert_eq!(fault(&board, &mut table, 0, 9), Reply::refused(28));
        assert_eq!(fault(&board, &mut table, 0, 4096), Reply::refused(10));
        assert_eq!(fault(&board, &mut table, 1, 9), Reply::refused(8));
        assert_eq!(set_quota(&mut board, &table, 1, 0), Reply::refused(8));
        let refused = set_quota(&mut board, &table, 8, u32::MAX);
        assert_eq!(refused, Reply::refused(8));
        let short = set_quota(&mut board, &table[..3], 0, 0);
        assert_eq!(short, Reply::refused(3));
        assert_eq!(set_quota(&mut board, &table, 0, 3), quota(3));
        assert_eq!(fault(&board, &mut table, 0, 9), Reply::refused(12));
    }

    /// What each call is answered: for page 9, which is not mapped, an empty set and a quota of 0, so that numbers
    /// tested later refuse most of them too.
    fn all_calls(state: &State, domain: u32) -> [Reply<Answer>; 6] {
        let calls = [
            Call::Look { domain, page: 9 },
            Call::Fault { domain, page: 9 },
            Call::Release { domain, page: 9 },
            Call::Colours { domain },
            Call::Recolour {
                domain,
                set: 0,
                room: 0,
            },
            Call::SetQuota { domain, quota: 0 },
        ];
        calls.map(|call| {
            let mut after = state.clone();
            let reply = after.call(&call, &mut []);
            if let Reply::Refused { .. } = reply {
                assert_eq!(after, *state);
            }
            reply
        })
    }

    /// 26 with row 0, for either domain of the two; after 7 and before 8; not for the fields beyond, and not in the
    /// tests that admission makes.
    #[test]
    fn board_quotas() {
        let mut state = recorder();
        let good = all_calls(&state, 1);
        let answers = [
            Reply::Answer(Answer::Unmapped),
            Reply::Answer(Answer::New(2)),
            Reply::refused(14),
            told(0xC, 4096),
            Reply::refused(9),
            Reply::refused(27),
        ];
        assert_eq!(good, answers);
        state.board.quotas[2..].copy_from_slice(&[0, 4097, u32::MAX, 65_536, 0, 1]);
        assert_eq!(all_calls(&state, 1), good);
        assert_eq!(all_calls(&state, 2), [Reply::refused(8); 6]);
        for (place, bad) in [(0, 0), (0, 4097), (1, 0), (1, 65_540), (1, u32::MAX)] {
            let mut state = state.clone();
            state.board.quotas[place] = bad;
            for domain in [0, 1, 2, 8] {
                assert_eq!(all_calls(&state, domain), [Reply::refused(26); 6]);
            }
            assert_eq!(refused_board(&state.board, Some(&state.table)), None);
            state.board.active[1] = 0x1;
            let (number, row) = (7, 1);
            let refusal = Reply::Refused { number, row };
            assert_eq!(all_calls(&state, 0), [refusal; 6]);
        }
        for least_and_most in [1, 4096] {
            state.board.quotas[..2].fill(least_and_most);
            let reply = colours(&state.board, &state.table, 1);
            assert_eq!(reply, told(0xC, least_and_most));
        }
    }

    /// All 4,096 frames of the longest table are held, two for each of the pages below 2,048: the highest quota is
    /// reached.
    #[test]
    fn the_highest_quota() {
        let mut board = single(1, 4096, 0x1);
        let mut table: Vec<u16> = (0..4096).map(|frame| 1 + frame / 2).collect();
        assert_eq!(fault(&board, &mut table, 0, 2048), Reply::refused(28));
        let refused = set_quota(&mut board, &table, 0, 4095);
        assert_eq!(refused, Reply::refused(27));
        assert_eq!(set_quota(&mut board, &table, 0, 4096), quota(4096));
        // one less, and no free frame
        table[4095] = RESERVED;
        assert_eq!(fault(&board, &mut table, 0, 2048), Reply::refused(12));
        assert_eq!(set_quota(&mut board, &table, 0, 4095), quota(4095));
        assert_eq!(fault(&board, &mut table, 0, 2048), Reply::refused(28));
    }

    /// Any content: duplicates and frames outside the grant move, a reserved frame is no target, and a
    /// frame that is vacated is not taken again.
    #[test]
    fn recolouring_any_table() {
        let State { mut board, .. } = recorder();
        let mut table = vec![RESERVED, 6, 6, 4098, 0, 0, 0, 0];
        let mut moves = [0; 6];
        assert_eq!(
            recolour(&mut board, &mut table, 0, 0x1, &mut moves),
            Reply::refused(12)
        );
        table[0] = FREE;
        assert_eq!(
            recolour(&mut board, &mut table, 0, 0x1, &mut moves),
            Reply::Answer(Answer::Moved(2))
        );
        assert_eq!(moves, [5, 1, 0, 5, 2, 4]);
        assert_eq!(table, [6, 0, 0, 4098, 6, 0, 0, 0]);
    }

    /// 4,096 × 2^20 is 0 in 32 bits: the domain 2^20 must not be taken for domain 0, nor page 4,096 of
    /// domain 0 for page 0 of domain 1.
    #[test]
    fn large_numbers_do_not_wrap() {
        let State { board, mut table } = recorder();
        table[2] = 4097;
        assert_eq!(look(&board, &table, 1 << 20, 0), Reply::refused(8));
        assert_eq!(
            fault(&board, &mut table, 0, PAGES),
            Reply::<Answer>::refused(10)
        );
        assert_eq!(
            release(&board, &mut table, u32::MAX, u32::MAX),
            Reply::refused(8)
        );
        assert_eq!(page_held(0, 4097), None);
        assert_eq!(page_held(1, 4097), Some(0));
        assert_eq!(page_held(1 << 20, 1), None);
        assert_eq!(page_held(0, 0), None);
    }

    /// Every number of 2 to 7 before the next, over all domains; the lower of two that share.
    #[test]
    fn board_refusals_in_order() {
        let State {
            mut board,
            mut table,
        } = recorder();
        board.domains = 4;
        board.grants[..4].copy_from_slice(&[0x1, 0x2, 0x12, 0x2]);
        board.active[..4].copy_from_slice(&[0, 0x2, 0x2, 0x2]);
        assert_eq!(refused_board(&board, Some(&table)), Some((5, 2)));
        board.grants[2] = 0x4;
        assert_eq!(refused_board(&board, Some(&table)), Some((6, 1)));
        board.grants[3] = 0x8;
        assert_eq!(refused_board(&board, Some(&table)), Some((7, 0)));
        board.active[..4].copy_from_slice(&[0x1, 0x2, 0x4, 0x2]);
        assert_eq!(refused_board(&board, Some(&table)), Some((7, 3)));
        board.domains = 3;
        assert_eq!(refused_board(&board, Some(&table)), None);
        assert_eq!(colours(&board, &table, 3), Reply::refused(8));
        board.domains = 9;
        assert_eq!(refused_board(&board, Some(&table)), Some((4, 0)));
        table.push(FREE);
        assert_eq!(refused_board(&board, Some(&table)), Some((3, 0)));
        board.colours = 3;
        assert_eq!(refused_board(&board, Some(&table)), Some((2, 0)));
    }
}
