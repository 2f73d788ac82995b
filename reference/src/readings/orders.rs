//! Other readings of document 02, No. 4, than the model's: the move list that each leaves, to be told from the
//! model's by vectors. The first is the order before No. 4.

use crate::model::frames::{word, Answer, Call, State, FREE, PAGES};
use crate::model::reply::Reply;

/// What a loader may go by when it writes the list.
pub struct Listed<'a> {
    domain: u32,
    before: &'a [u16],
    after: &'a mut [u16],
    /// The list as it was lent, and with the right triples.
    lent: &'a [u16],
    list: &'a mut [u16],
    count: usize,
}

/// Writes the list in another way.
pub type Order = fn(&mut Listed);

/// Runs a call by another reading: an accepted recolouring leaves the list that it writes. All else is the
/// model's.
pub fn call(state: &mut State, call: &Call, moves: &mut [u16], order: Order) -> Reply<Answer> {
    let before = state.table.clone();
    let lent = moves.to_vec();
    let reply = state.call(call, moves);
    if let (Reply::Answer(Answer::Moved(count)), Call::Recolour { .. }) = (reply, call) {
        order(&mut Listed {
            domain: call.domain(),
            before: &before,
            after: &mut state.table,
            lent: &lent,
            list: moves,
            count,
        });
    }
    reply
}

impl Listed<'_> {
    fn triples(&mut self) -> &mut [[u16; 3]] {
        let (triples, _) = self.list.as_chunks_mut();
        &mut triples[..self.count]
    }

    fn sort<K: Ord>(&mut self, key: impl Fn(u16, u16, u16) -> K) {
        self.triples()
            .sort_by_key(|[page, old, new]| key(*page, *old, *new));
    }

    /// Puts each triple where the reading says that it stands, as far as the list goes: given are its right
    /// place and the triple.
    fn put(&mut self, place: impl Fn(usize, &[u16; 3]) -> usize) {
        let triples = self.triples().to_vec();
        self.list.copy_from_slice(self.lent);
        for (right, triple) in triples.iter().enumerate() {
            let at = 3 * place(right, triple);
            if let Some(there) = self.list.get_mut(at..at + 3) {
                there.copy_from_slice(triple);
            }
        }
    }
}

pub fn by_old_frame(listed: &mut Listed) {
    listed.sort(|_, old, _| old);
}

pub fn by_new_frame(listed: &mut Listed) {
    listed.sort(|_, _, new| new);
}

pub fn falling_pages(listed: &mut Listed) {
    listed.sort(|page, old, _| (PAGES as u16 - page, old));
}

pub fn equal_by_falling_old_frame(listed: &mut Listed) {
    listed.sort(|page, old, _| (page, u16::MAX - old));
}

pub fn equal_by_new_frame(listed: &mut Listed) {
    listed.sort(|page, _, new| (page, new));
}

/// The eight low bits of pages are compared, and no others.
pub fn low_byte(listed: &mut Listed) {
    listed.sort(|page, old, _| (page % 256, old));
}

/// Page 0 stands behind all others.
pub fn first_page_last(listed: &mut Listed) {
    listed.sort(|page, old, _| (page.wrapping_sub(1), old));
}

/// The frame that is moved last stands last.
pub fn last_left_out(listed: &mut Listed) {
    let last = listed.triples().iter().map(|triple| triple[1]).max();
    listed.sort(|page, old, _| (Some(old) == last, page, old));
}

/// The frame that is moved first stands first.
pub fn first_left_out(listed: &mut Listed) {
    let first = listed.triples().iter().map(|triple| triple[1]).min();
    listed.sort(|page, old, _| (Some(old) != first, page, old));
}

/// Each triple has the new frame before the old one.
pub fn new_before_old(listed: &mut Listed) {
    for triple in listed.triples() {
        triple.swap(1, 2);
    }
}

/// The triples of a page are all put where its first stands.
pub fn page_once(listed: &mut Listed) {
    let triples = listed.triples().to_vec();
    let first = |page| triples.partition_point(|triple| triple[0] < page);
    listed.put(|_, triple| first(triple[0]));
}

/// The places leave room for the frames that the domain holds in the new set.
pub fn room_for_all(listed: &mut Listed) {
    let (first, before) = (word(listed.domain, 0), listed.before);
    let moved = listed.triples().to_vec();
    // of lower pages: the frames held and those that are moved
    let held = |page: u16| {
        let lower = first..first + u64::from(page);
        let words = before.iter().map(|held| u64::from(*held));
        words.filter(|held| lower.contains(held)).count()
    };
    let stray = |page: u16| moved.iter().filter(|triple| triple[0] < page).count();
    listed.put(|right, triple| right + held(triple[0]) - stray(triple[0]));
}

/// The order is made first, and the targets are then handed out in it.
pub fn targets_by_page(listed: &mut Listed) {
    // a target does not depend on the frame that goes to it
    let mut by_old = listed.triples().to_vec();
    by_old.sort_by_key(|triple| triple[1]);
    for (triple, chosen) in listed.triples().iter_mut().zip(by_old) {
        triple[2] = chosen[2];
    }
    let triples = listed.triples().to_vec();
    for [_, old, new] in triples {
        listed.after[usize::from(old)] = FREE;
        listed.after[usize::from(new)] = listed.before[usize::from(old)];
    }
}

/// The word past the triples is changed, where there is one.
pub fn word_more(listed: &mut Listed) {
    if let Some(word) = listed.list.get_mut(3 * listed.count) {
        *word = 0;
    }
}

/// Places of eight bits: it takes long lists to see it.
pub fn wrapped(listed: &mut Listed) {
    listed.put(|right, _| right % 256);
}

/// All but the one on long lists.
pub const WRONG: [(&str, Order); 14] = [
    ("by old frame", by_old_frame),
    ("by new frame", by_new_frame),
    ("falling pages", falling_pages),
    (
        "equal pages by falling old frame",
        equal_by_falling_old_frame,
    ),
    ("equal pages by new frame", equal_by_new_frame),
    ("by the low byte of pages", low_byte),
    ("page 0 last", first_page_last),
    ("the last left out of the order", last_left_out),
    ("the first left out of the order", first_left_out),
    ("the new frame before the old one", new_before_old),
    ("a page once", page_once),
    ("room for frames that stay", room_for_all),
    ("targets in page order", targets_by_page),
    ("a word past the triples", word_more),
];
