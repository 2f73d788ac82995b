//! Other readings of document 02, No. 10, than the model's: how a taking back runs by each, to be told from the
//! model's by vectors and histories. All other calls are the model's.

use crate::model::frames::{
    frames_held, has, page_held, refused_caller, unfit, word, Answer, Call, State, DOMAINS, FREE,
    PAGES, QUOTA, RESERVED,
};
use crate::model::reply::Reply;

/// What is otherwise.
#[derive(Clone, Copy, Debug, PartialEq, Eq)]
pub enum Wrong {
    /// 31: words past the last triple are passed over; a list without triples is refused; the triples must stand as
    /// the recolouring wrote them.
    RestPassedOver,
    EmptyRefused,
    OrderDemanded,
    /// 31: page 4,096 goes through; any page does, and its word is of 16 bits.
    OnePageMore,
    AnyPage,
    /// 31: triples with a frame that is not there are passed over.
    NoFramePassedOver,
    /// 31: a frame twice is sought among old frames alone, among new ones, in each triple, beside the triple before,
    /// and nowhere; and frames that are alike in eight bits are the same.
    TwiceOld,
    TwiceNew,
    TwiceInTriple,
    TwiceInNeighbours,
    TwiceNowhere,
    TwiceByLowByte,
    /// 31: the new frame may have any word, or any of the domain's.
    NewOfAnybody,
    NewOfAnyPage,
    /// 31: the old frame may have any word, or be reserved; have any colour, or one of the present set or the grant.
    OldHeld,
    OldReserved,
    OldOfAnyColour,
    OldOfPresentSet,
    OldOfGrant,
    /// Each triple is tested on the table as the one before left it; and so they stay, where a later one is refused.
    OneByOne,
    MovesStay,
    /// 32 before the moves; never; before 31; of frames outside the grant; of all domains' frames; of those that look
    /// answers.
    StraysBefore,
    StraysNever,
    StraysFirst,
    StraysOfGrant,
    StraysOfAll,
    StraysMapped,
    /// 9 after 31; never.
    SetAfterList,
    SetNever,
    /// Without 26; 28 above the quota, or at it.
    QuotasUntested,
    AboveQuota,
    AtQuota,
    /// The rows of 31 and 32 are the domain's number; that of 31 the triple's.
    DomainNamed,
    TripleNamed,
    /// The words are counted.
    WordsCounted,
    /// The set stays as it is; it is the grant; it stays with an empty list; the set must be another one, or hold the
    /// present one.
    SetKept,
    GrantActive,
    EmptyKeepsSet,
    SameSetRefused,
    SmallerSetRefused,
    /// The set is made active where 32 refuses, too.
    SetThoughRefused,
    /// No frame is moved; new frames keep their words; the next domain's field gets the set, too.
    NotMoved,
    NewKept,
    NextDomainsSet,
}

use Wrong::*;

/// Those that show in small scripts.
pub const WRONG: [Wrong; 44] = [
    RestPassedOver,
    EmptyRefused,
    OrderDemanded,
    OnePageMore,
    AnyPage,
    NoFramePassedOver,
    TwiceOld,
    TwiceNew,
    TwiceInTriple,
    TwiceInNeighbours,
    TwiceNowhere,
    NewOfAnybody,
    NewOfAnyPage,
    OldHeld,
    OldReserved,
    OldOfAnyColour,
    OldOfPresentSet,
    OldOfGrant,
    OneByOne,
    MovesStay,
    StraysBefore,
    StraysNever,
    StraysFirst,
    StraysOfGrant,
    StraysOfAll,
    StraysMapped,
    SetAfterList,
    SetNever,
    QuotasUntested,
    AboveQuota,
    AtQuota,
    DomainNamed,
    TripleNamed,
    WordsCounted,
    SetKept,
    GrantActive,
    EmptyKeepsSet,
    SameSetRefused,
    SmallerSetRefused,
    SetThoughRefused,
    NotMoved,
    NewKept,
    NextDomainsSet,
    TwiceByLowByte,
];

/// The call by such a reading.
pub fn call(state: &mut State, call: &Call, moves: &mut [u16], wrong: Wrong) -> Reply<Answer> {
    let Call::TakeBack {
        domain,
        set,
        ref list,
    } = *call
    else {
        return state.call(call, moves);
    };
    let quotas = state.board.quotas;
    if wrong == QuotasUntested {
        state.board.quotas = [QUOTA; DOMAINS];
    }
    let reply = Taken {
        domain,
        set,
        list,
        wrong,
    }
    .run(state);
    state.board.quotas = quotas;
    reply
}

struct Taken<'a> {
    domain: u32,
    set: u32,
    list: &'a [u16],
    wrong: Wrong,
}

impl Taken<'_> {
    fn run(&self, state: &mut State) -> Reply<Answer> {
        let no = Reply::refused;
        let (domain, set, wrong) = (self.domain, self.set, self.wrong);
        if let Some(refusal) = refused_caller(&state.board, &state.table, domain) {
            return refusal;
        }
        let here = domain as usize;
        let (grant, present) = (state.board.grants[here], state.board.active[here]);
        let unfit = match wrong {
            SetNever => false,
            SameSetRefused => unfit(set, grant) || set == present,
            SmallerSetRefused => unfit(set, grant) || present & !set != 0,
            _ => unfit(set, grant),
        };
        if unfit && wrong != SetAfterList {
            return no(9);
        }
        let held = frames_held(&state.table, domain) as u32;
        let quota = state.board.quotas[here];
        if wrong == AboveQuota && held > quota || wrong == AtQuota && held == quota {
            return no(28);
        }
        let (at_fault, after) = self.moved(state);
        let strays = self.strays(state, &after);
        if let Some(place) = at_fault {
            if wrong == MovesStay {
                state.table = after;
            }
            return match wrong {
                StraysFirst if strays => no(32),
                DomainNamed => self.named(31, domain),
                TripleNamed => self.named(31, place as u32),
                _ => no(31),
            };
        }
        if unfit {
            return no(9);
        }
        if strays {
            if wrong == SetThoughRefused {
                state.board.active[here] = set;
            }
            return match wrong {
                DomainNamed => self.named(32, domain),
                _ => no(32),
            };
        }
        if wrong != NotMoved {
            state.table = after;
        }
        match wrong {
            SetKept => {}
            EmptyKeepsSet if self.list.is_empty() => {}
            GrantActive => state.board.active[here] = grant,
            NextDomainsSet => {
                state.board.active[here] = set;
                state.board.active[(here + 1) % DOMAINS] = set;
            }
            _ => state.board.active[here] = set,
        }
        let count = self.list.len() / 3;
        Reply::Answer(Answer::Moved(match wrong {
            WordsCounted => self.list.len(),
            _ => count,
        }))
    }

    fn named(&self, number: u32, row: u32) -> Reply<Answer> {
        Reply::Refused { number, row }
    }

    /// The place of the first triple at fault, if any, and the table with the moves up to it.
    fn moved(&self, state: &State) -> (Option<usize>, Vec<u16>) {
        let wrong = self.wrong;
        let mut after = state.table.clone();
        let (triples, rest) = self.list.as_chunks::<3>();
        let order = |triple: &[u16; 3]| (triple[0], triple[1]);
        if wrong == OrderDemanded && !triples.is_sorted_by_key(order)
            || wrong == EmptyRefused && triples.is_empty()
        {
            return (Some(0), after);
        }
        for (place, triple) in triples.iter().enumerate() {
            let [_, old, new] = triple.map(usize::from);
            if wrong == NoFramePassedOver && old.max(new) >= after.len() {
                continue;
            }
            let sight = match wrong {
                OneByOne | MovesStay => &after,
                _ => &state.table,
            };
            if !self.passes(state, sight, &triples[..place], triple) {
                return (Some(place), after);
            }
            let held = sight[new];
            if wrong != NewKept {
                after[new] = FREE;
            }
            after[old] = held;
        }
        match rest.is_empty() || wrong == RestPassedOver {
            true => (None, after),
            false => (Some(triples.len()), after),
        }
    }

    fn passes(&self, state: &State, sight: &[u16], before: &[[u16; 3]], triple: &[u16; 3]) -> bool {
        let [page, old, new] = *triple;
        let (board, wrong) = (&state.board, self.wrong);
        let most = match wrong {
            AnyPage => u16::MAX,
            OnePageMore => PAGES as u16,
            _ => PAGES as u16 - 1,
        };
        if page > most || u32::from(old.max(new)) >= board.frames || self.twice(before, triple) {
            return false;
        }
        let (old_word, held) = (sight[usize::from(old)], sight[usize::from(new)]);
        let new_passes = match wrong {
            NewOfAnybody => true,
            NewOfAnyPage => page_held(self.domain, held).is_some(),
            _ => held == word(self.domain, page.into()) as u16,
        };
        let old_passes = match wrong {
            OldHeld => true,
            OldReserved => old_word == FREE || old_word == RESERVED,
            _ => old_word == FREE,
        };
        let set = match wrong {
            OldOfAnyColour => u32::MAX,
            OldOfPresentSet => board.active[self.domain as usize],
            OldOfGrant => board.grants[self.domain as usize],
            _ => self.set,
        };
        new_passes && old_passes && has(set, u32::from(old) % board.colours)
    }

    /// Whether a frame of the triple is there a second time, as the reading sees it.
    fn twice(&self, before: &[[u16; 3]], triple: &[u16; 3]) -> bool {
        let [_, old, new] = *triple;
        let in_triple = old == new;
        let among = |before: &[[u16; 3]]| {
            let named = before.iter().flat_map(|[_, old, new]| [*old, *new]);
            in_triple || named.into_iter().any(|frame| frame == old || frame == new)
        };
        match self.wrong {
            TwiceOld => before.iter().any(|triple| triple[1] == old),
            TwiceNew => before.iter().any(|triple| triple[2] == new),
            TwiceInTriple => in_triple,
            TwiceInNeighbours => among(&before[before.len().saturating_sub(1)..]),
            TwiceNowhere | OneByOne => false,
            TwiceByLowByte => {
                let [old, new] = [old, new].map(|frame| frame % 256);
                let named = before.iter().flat_map(|[_, old, new]| [*old, *new]);
                old == new
                    || named
                        .map(|frame| frame % 256)
                        .any(|frame| frame == old || frame == new)
            }
            _ => among(before),
        }
    }

    fn strays(&self, state: &State, after: &[u16]) -> bool {
        let table = match self.wrong {
            StraysBefore => &state.table,
            _ => after,
        };
        let set = match self.wrong {
            StraysOfGrant => state.board.grants[self.domain as usize],
            StraysNever => u32::MAX,
            _ => self.set,
        };
        let counts = |frame: usize| match self.wrong {
            StraysOfAll => (word(0, 0)..word(8, 0)).contains(&table[frame].into()),
            StraysMapped => {
                page_held(self.domain, table[frame]).is_some()
                    && !table[..frame].contains(&table[frame])
            }
            _ => page_held(self.domain, table[frame]).is_some(),
        };
        (0..table.len()).any(|frame| counts(frame) && !has(set, frame as u32 % state.board.colours))
    }
}
