//! Other readings of document 02, No. 7, than the model's: the choice of a free frame that each makes, to be
//! told from the model's by vectors and histories. The first is the rule before No. 7.

use crate::model::cache::colours;
use crate::model::frames::{word, Answer, Board, Call, State, FREE, PAGES};
use crate::model::reply::Reply;

/// What a loader may go by when it chooses a frame.
pub struct Sight<'a> {
    board: &'a Board,
    domain: u32,
    /// The active set, in a recolouring the new one, and the active set before the call.
    set: u32,
    former: u32,
    /// The table before the call, and with the moves so far.
    before: &'a [u16],
    now: &'a [u16],
}

/// The frame that is chosen, if any.
pub type Reading = fn(&Sight) -> Option<usize>;

/// Runs a call by another reading: a fault of an unmapped page and the moves of a recolouring get the frames
/// that it chooses, and 12 where it has none. All else is the model's.
pub fn call(state: &mut State, call: &Call, moves: &mut [u16], reading: Reading) -> Reply<Answer> {
    let start = state.clone();
    let list = moves.to_vec();
    let reply = state.call(call, moves);
    let mut now = start.table.clone();
    let choose = |board: &Board, now: &[u16]| {
        let domain = call.domain();
        reading(&Sight {
            board,
            domain,
            set: board.active[domain as usize],
            former: start.board.active[domain as usize],
            before: &start.table,
            now,
        })
    };
    let reply = match (reply, call) {
        (Reply::Answer(Answer::New(frame)), _) => choose(&state.board, &now).map(|chosen| {
            now[chosen] = state.table[frame];
            Answer::New(chosen)
        }),
        (Reply::Answer(answer @ Answer::Moved(count)), Call::Recolour { .. }) => {
            let mut triples: Vec<&mut [u16]> = moves.chunks_mut(3).take(count).collect();
            triples.sort_by_key(|triple| triple[1]);
            let moved = triples.into_iter().all(|triple| {
                let Some(chosen) = choose(&state.board, &now) else {
                    return false;
                };
                now.swap(triple[1] as usize, chosen);
                triple[2] = chosen as u16;
                true
            });
            moved.then_some(answer)
        }
        _ => return reply,
    };
    match reply {
        Some(answer) => {
            state.table = now;
            Reply::Answer(answer)
        }
        None => {
            *state = start;
            moves.copy_from_slice(&list);
            Reply::refused(12)
        }
    }
}

impl Sight<'_> {
    fn colour(&self, frame: usize) -> u32 {
        frame as u32 % self.board.colours
    }

    /// Whether the word is the domain's, for whatever page.
    fn own(&self, held: u16) -> bool {
        let held = u64::from(held);
        (word(self.domain, 0)..word(self.domain, PAGES)).contains(&held)
    }

    /// The frames of a colour.
    fn frames(&self, colour: u32) -> impl DoubleEndedIterator<Item = usize> {
        (colour as usize..self.now.len()).step_by(self.board.colours as usize)
    }

    /// The free frames of a colour that were free before any move, ascending.
    fn free(&self, colour: u32) -> impl DoubleEndedIterator<Item = usize> + '_ {
        self.frames(colour)
            .filter(|frame| self.now[*frame] == FREE && self.before[*frame] == FREE)
    }

    fn lowest(&self, colour: u32) -> Option<usize> {
        self.free(colour).next()
    }

    /// How many frames of the colour have such a word in the table.
    fn count(&self, table: &[u16], colour: u32, counts: impl Fn(u16) -> bool) -> usize {
        self.frames(colour)
            .filter(|frame| counts(table[*frame]))
            .count()
    }

    fn held(&self, colour: u32) -> usize {
        self.count(self.now, colour, |held| self.own(held))
    }

    /// The colours of the set that have a free frame, ascending.
    fn candidates(&self, set: u32) -> Vec<u32> {
        let mut all = colours(set);
        all.retain(|colour| self.lowest(*colour).is_some());
        all
    }

    /// The rule, with another count of what is held.
    fn fewest(&self, held: impl Fn(u32) -> usize) -> Option<usize> {
        let candidates = self.candidates(self.set).into_iter();
        candidates
            .min_by_key(|colour| held(*colour))
            .and_then(|colour| self.lowest(colour))
    }
}

/// The lowest free frame with an active colour.
pub fn lowest_first(sight: &Sight) -> Option<usize> {
    let candidates = sight.candidates(sight.set).into_iter();
    candidates.filter_map(|colour| sight.lowest(colour)).min()
}

/// The highest colour on a tie.
pub fn highest_colour(sight: &Sight) -> Option<usize> {
    let candidates = sight.candidates(sight.set).into_iter().rev();
    candidates
        .min_by_key(|colour| sight.held(*colour))
        .and_then(|colour| sight.lowest(colour))
}

/// The lowest frame of all colours on a tie.
pub fn lowest_frame(sight: &Sight) -> Option<usize> {
    let candidates = sight.candidates(sight.set).into_iter();
    candidates
        .map(|colour| (sight.held(colour), sight.lowest(colour)))
        .min()
        .and_then(|(_, frame)| frame)
}

/// On a tie the next colour in turn, by all words so far that are not free.
pub fn in_turn(sight: &Sight) -> Option<usize> {
    let n = sight.board.colours;
    let used = sight.now.iter().filter(|held| **held != FREE).count() as u32;
    let candidates = sight.candidates(sight.set).into_iter();
    candidates
        .min_by_key(|colour| (sight.held(*colour), (colour + n - used % n) % n))
        .and_then(|colour| sight.lowest(colour))
}

/// The highest free frame of the colour.
pub fn highest_frame(sight: &Sight) -> Option<usize> {
    let candidates = sight.candidates(sight.set).into_iter();
    candidates
        .min_by_key(|colour| sight.held(*colour))
        .and_then(|colour| sight.free(colour).next_back())
}

/// The colour in which the most frames are held.
pub fn most_held(sight: &Sight) -> Option<usize> {
    sight.fewest(|colour| sight.now.len() - sight.held(colour))
}

/// The colour with the most free frames.
pub fn most_free(sight: &Sight) -> Option<usize> {
    sight.fewest(|colour| sight.now.len() - sight.free(colour).count())
}

/// Frames of other domains count too.
pub fn all_domains(sight: &Sight) -> Option<usize> {
    let domains = word(0, 0)..word(8, 0);
    sight.fewest(|colour| sight.count(sight.now, colour, |held| domains.contains(&u64::from(held))))
}

/// All frames count that are not free.
pub fn all_words(sight: &Sight) -> Option<usize> {
    sight.fewest(|colour| sight.count(sight.now, colour, |held| held != FREE))
}

/// A page counts once in a colour, however many frames of it it has.
pub fn pages_once(sight: &Sight) -> Option<usize> {
    sight.fewest(|colour| {
        let words = sight.frames(colour).map(|frame| sight.now[frame]);
        let mut own: Vec<u16> = words.filter(|held| sight.own(*held)).collect();
        own.sort();
        own.dedup();
        own.len()
    })
}

/// The frames moved so far do not count.
pub fn moved_left_out(sight: &Sight) -> Option<usize> {
    sight.fewest(|colour| sight.count(sight.before, colour, |held| sight.own(held)))
}

/// In a recolouring only the frames moved so far count.
pub fn only_moved(sight: &Sight) -> Option<usize> {
    let recolouring = sight.now != sight.before || sight.set != sight.former;
    sight.fewest(|colour| {
        let before = sight.count(sight.before, colour, |held| sight.own(held));
        sight.held(colour) - if recolouring { before } else { 0 }
    })
}

/// A colour without a free frame is chosen too, and then there is none.
pub fn full_colours(sight: &Sight) -> Option<usize> {
    let colour = colours(sight.set)
        .into_iter()
        .min_by_key(|colour| sight.held(*colour))?;
    sight.lowest(colour)
}

/// The colours of the grant, whatever is active.
pub fn whole_grant(sight: &Sight) -> Option<usize> {
    let grant = sight.board.grants[sight.domain as usize];
    let candidates = sight.candidates(grant).into_iter();
    candidates
        .min_by_key(|colour| sight.held(*colour))
        .and_then(|colour| sight.lowest(colour))
}

/// In a recolouring the colours that were active go on to be, and frames that are vacated are taken.
pub fn vacated(sight: &Sight) -> Option<usize> {
    let set = sight.set | sight.former;
    let free = (0..sight.now.len())
        .filter(|frame| sight.now[*frame] == FREE && set >> sight.colour(*frame) & 1 == 1);
    free.min_by_key(|frame| {
        let colour = sight.colour(*frame);
        (sight.held(colour), colour)
    })
}

/// Counts of eight bits: it takes long tables to see it.
pub fn wrapped(sight: &Sight) -> Option<usize> {
    sight.fewest(|colour| sight.held(colour) % 256)
}

/// All but the one on long tables.
pub const WRONG: [(&str, Reading); 15] = [
    ("lowest first", lowest_first),
    ("the highest colour on a tie", highest_colour),
    ("the lowest frame on a tie", lowest_frame),
    ("colours in turn on a tie", in_turn),
    ("the highest frame of the colour", highest_frame),
    ("the most held", most_held),
    ("the most free", most_free),
    ("other domains counted", all_domains),
    ("all words counted", all_words),
    ("a page counted once", pages_once),
    ("moves so far not counted", moved_left_out),
    ("only moves counted", only_moved),
    ("colours without a free frame", full_colours),
    ("colours that are not active", whole_grant),
    ("a vacated frame", vacated),
];
