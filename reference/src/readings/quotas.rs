//! Other readings of document 02, No. 6, than the model's: how calls run by each, to be told from the model by
//! vectors and histories. Some count other frames as held, some take or refuse other quotas, and some test in
//! another order.

use std::collections::BTreeSet;

use crate::model::frames::{
    frames_held, no_quota, word, Answer, Call, State, DOMAINS, FREE, PAGES, QUOTA,
};
use crate::model::reply::Reply;

/// How calls run.
pub type Reading = fn(&mut State, &Call, &mut [u16]) -> Reply<Answer>;

/// How many frames a domain is said to hold.
pub type Count = fn(&State, u32) -> usize;

/// The call as if each quota were 4,096, which are afterwards what they were.
fn unlimited(state: &mut State, call: &Call, moves: &mut [u16]) -> Reply<Answer> {
    let quotas = state.board.quotas;
    state.board.quotas = [QUOTA; DOMAINS];
    let reply = state.call(call, moves);
    state.board.quotas = quotas;
    // where 4,096 frames are held, none is free
    match reply == Reply::refused(28) {
        true => Reply::refused(12),
        false => reply,
    }
}

fn quota(state: &State, domain: u32) -> usize {
    state.board.quotas[domain as usize] as usize
}

/// Whether the quota of a domain below the count is 0 or above 4,096.
fn spoilt(state: &State) -> bool {
    let count = (state.board.domains as usize).min(DOMAINS);
    state.board.quotas[..count].iter().any(|q| no_quota(*q))
}

/// The model's reply, and whether the fault is of a page that is not mapped, and refused by no number before 28.
fn unmapped_fault(state: &mut State, call: &Call, moves: &mut [u16]) -> (Reply<Answer>, bool) {
    let reply = state.call(call, moves);
    let last = [Reply::refused(28), Reply::refused(12)];
    let new = matches!(reply, Reply::Answer(Answer::New(_)));
    let faults = matches!(call, Call::Fault { .. });
    (reply, new || faults && last.contains(&reply))
}

/// Whether the model answers the call of set quota, or refuses it because of the quota asked for.
fn quota_judged(call: &Call, reply: Reply<Answer>) -> Option<u32> {
    let judged = reply == Reply::refused(27) || matches!(reply, Reply::Answer(_));
    match *call {
        Call::SetQuota { quota, .. } if judged => Some(quota),
        _ => None,
    }
}

/// Faults by another count of the frames held.
pub fn faults_by(state: &mut State, call: &Call, moves: &mut [u16], count: Count) -> Reply<Answer> {
    let start = state.clone();
    let (reply, judged) = unmapped_fault(state, call, moves);
    if !judged {
        return reply;
    }
    *state = start;
    if count(state, call.domain()) >= quota(state, call.domain()) {
        return Reply::refused(28);
    }
    unlimited(state, call, moves)
}

/// Set quota by another count of the frames held.
pub fn quotas_by(state: &mut State, call: &Call, moves: &mut [u16], count: Count) -> Reply<Answer> {
    judged_by(state, call, moves, |state, quota| {
        !no_quota(quota) && quota as usize >= count(state, call.domain())
    })
}

/// Set quota takes the quotas that the reading takes.
fn judged_by(
    state: &mut State,
    call: &Call,
    moves: &mut [u16],
    takes: impl Fn(&State, u32) -> bool,
) -> Reply<Answer> {
    let start = state.clone();
    let reply = state.call(call, moves);
    let Some(quota) = quota_judged(call, reply) else {
        return reply;
    };
    *state = start;
    if !takes(state, quota) {
        return Reply::refused(27);
    }
    state.board.quotas[call.domain() as usize] = quota;
    Reply::Answer(Answer::Quota(quota))
}

/// The right test of 27.
fn takes(state: &State, call: &Call, quota: u32) -> bool {
    !no_quota(quota) && quota as usize >= frames_held(&state.table, call.domain())
}

/// The domain's frames, each with its page.
fn own(state: &State, domain: u32) -> impl Iterator<Item = (usize, u64)> + '_ {
    let pages = move |held: &u16| u64::from(*held).checked_sub(word(domain, 0));
    let words = state.table.iter().enumerate();
    words
        .filter_map(move |(frame, held)| Some((frame, pages(held)?)))
        .filter(|(_, page)| *page < u64::from(PAGES))
}

fn own_in(state: &State, domain: u32, set: u32) -> usize {
    let inside = |(frame, _): &(usize, u64)| set >> (*frame as u32 % state.board.colours) & 1 == 1;
    own(state, domain).filter(inside).count()
}

pub fn of_all_domains(state: &State, _: u32) -> usize {
    let domains = word(0, 0)..word(8, 0);
    let words = state.table.iter().map(|held| u64::from(*held));
    words.filter(|held| domains.contains(held)).count()
}

/// Other counts of the frames held, but for the one on long tables.
pub const COUNTS: [(&str, Count); 8] = [
    ("frames of active colours", |state, domain| {
        own_in(state, domain, state.board.active[domain as usize])
    }),
    ("frames of granted colours", |state, domain| {
        own_in(state, domain, state.board.grants[domain as usize])
    }),
    ("pages", |state, domain| {
        let pages: BTreeSet<u64> = own(state, domain).map(|(_, page)| page).collect();
        pages.len()
    }),
    ("frames of all domains", of_all_domains),
    ("frames that are not free", |state, _| {
        state.table.iter().filter(|held| **held != FREE).count()
    }),
    ("no frames of page 0", |state, domain| {
        own(state, domain).filter(|(_, page)| *page > 0).count()
    }),
    ("no frames of page 4,095", |state, domain| {
        let last = u64::from(PAGES) - 1;
        own(state, domain).filter(|(_, page)| *page < last).count()
    }),
    ("page 0 of the next domain too", |state, domain| {
        let next = |held: &&u16| u64::from(**held) == word(domain, PAGES);
        frames_held(&state.table, domain) + state.table.iter().filter(next).count()
    }),
];

/// Counts of eight bits: it takes long tables to see it.
pub fn wrapped(state: &State, domain: u32) -> usize {
    frames_held(&state.table, domain) % 256
}

/// A fault goes through while the frames held are at the quota.
pub fn only_above(state: &mut State, call: &Call, moves: &mut [u16]) -> Reply<Answer> {
    faults_by(state, call, moves, |state, domain| {
        frames_held(&state.table, domain).saturating_sub(1)
    })
}

/// The last frame of the quota is not given.
pub fn one_early(state: &mut State, call: &Call, moves: &mut [u16]) -> Reply<Answer> {
    faults_by(state, call, moves, |state, domain| {
        frames_held(&state.table, domain) + 1
    })
}

fn never_full(state: &mut State, call: &Call, moves: &mut [u16]) -> Reply<Answer> {
    faults_by(state, call, moves, |_, _| 0)
}

/// 28 after 12.
fn frames_first(state: &mut State, call: &Call, moves: &mut [u16]) -> Reply<Answer> {
    let reply = state.call(call, moves);
    if reply != Reply::refused(28) {
        return reply;
    }
    match unlimited(&mut state.clone(), call, moves) {
        none @ Reply::Refused { .. } => none,
        _ => reply,
    }
}

/// 28 for a mapped page too.
fn mapped_too(state: &mut State, call: &Call, moves: &mut [u16]) -> Reply<Answer> {
    let reply = state.call(call, moves);
    let full = |domain| frames_held(&state.table, domain) >= quota(state, domain);
    match reply {
        Reply::Answer(Answer::Old(_)) if full(call.domain()) => Reply::refused(28),
        _ => reply,
    }
}

/// 28 before 10.
fn quota_before_page(state: &mut State, call: &Call, moves: &mut [u16]) -> Reply<Answer> {
    let reply = state.call(call, moves);
    let full = |domain| frames_held(&state.table, domain) >= quota(state, domain);
    match *call {
        Call::Fault { domain, .. } if reply == Reply::refused(10) && full(domain) => {
            Reply::refused(28)
        }
        _ => reply,
    }
}

/// A quota below the frames held is taken.
pub fn below_held(state: &mut State, call: &Call, moves: &mut [u16]) -> Reply<Answer> {
    judged_by(state, call, moves, |_, quota| !no_quota(quota))
}

/// The frames held are refused as a quota.
fn above_held(state: &mut State, call: &Call, moves: &mut [u16]) -> Reply<Answer> {
    judged_by(state, call, moves, |state, quota| {
        takes(state, call, quota) && quota as usize > frames_held(&state.table, call.domain())
    })
}

/// 0 is taken where no frame is held.
fn none_taken(state: &mut State, call: &Call, moves: &mut [u16]) -> Reply<Answer> {
    judged_by(state, call, moves, |state, quota| {
        quota <= QUOTA && quota as usize >= frames_held(&state.table, call.domain())
    })
}

fn more_taken(state: &mut State, call: &Call, moves: &mut [u16]) -> Reply<Answer> {
    judged_by(state, call, moves, |state, quota| {
        takes(state, call, quota) || quota == QUOTA + 1
    })
}

fn highest_refused(state: &mut State, call: &Call, moves: &mut [u16]) -> Reply<Answer> {
    judged_by(state, call, moves, |state, quota| {
        takes(state, call, quota) && quota < QUOTA
    })
}

/// A quota above F is refused.
fn up_to_frames(state: &mut State, call: &Call, moves: &mut [u16]) -> Reply<Answer> {
    judged_by(state, call, moves, |state, quota| {
        takes(state, call, quota) && quota <= state.board.frames
    })
}

fn old_refused(state: &mut State, call: &Call, moves: &mut [u16]) -> Reply<Answer> {
    judged_by(state, call, moves, |state, quota| {
        takes(state, call, quota) && quota != state.board.quotas[call.domain() as usize]
    })
}

/// A quota cannot be raised.
fn only_lowered(state: &mut State, call: &Call, moves: &mut [u16]) -> Reply<Answer> {
    judged_by(state, call, moves, |state, quota| {
        takes(state, call, quota) && quota <= state.board.quotas[call.domain() as usize]
    })
}

/// The quota asked for is cut to 16 bits, and so tested and answered.
fn asked_cut(state: &mut State, call: &Call, moves: &mut [u16]) -> Reply<Answer> {
    match *call {
        Call::SetQuota { domain, quota } => {
            let quota = quota % (1 << 16);
            state.call(&Call::SetQuota { domain, quota }, moves)
        }
        _ => state.call(call, moves),
    }
}

/// 27 before 8, as far as the quota asked for is none at all.
fn asked_before_domain(state: &mut State, call: &Call, moves: &mut [u16]) -> Reply<Answer> {
    let reply = state.call(call, moves);
    match *call {
        Call::SetQuota { quota, .. } if reply == Reply::refused(8) && no_quota(quota) => {
            Reply::refused(27)
        }
        _ => reply,
    }
}

/// 27 before 26.
fn asked_before_board(state: &mut State, call: &Call, moves: &mut [u16]) -> Reply<Answer> {
    let reply = state.call(call, moves);
    match *call {
        Call::SetQuota { quota, .. } if reply == Reply::refused(26) && no_quota(quota) => {
            Reply::refused(27)
        }
        _ => reply,
    }
}

/// What an answered call of set quota puts into the fields, given its domain, its quota and the fields before.
fn fields_by(
    state: &mut State,
    call: &Call,
    moves: &mut [u16],
    put: impl Fn(&mut [u32; DOMAINS], usize, u32),
) -> Reply<Answer> {
    let mut quotas = state.board.quotas;
    let reply = state.call(call, moves);
    if let Reply::Answer(Answer::Quota(quota)) = reply {
        put(&mut quotas, call.domain() as usize, quota);
        state.board.quotas = quotas;
    }
    reply
}

/// The field of the next domain below the count is changed as well.
pub fn next_too(state: &mut State, call: &Call, moves: &mut [u16]) -> Reply<Answer> {
    let count = state.board.domains as usize;
    fields_by(state, call, moves, |quotas, domain, quota| {
        quotas[domain] = quota;
        quotas[(domain + 1) % count] = quota;
    })
}

fn field_beyond_too(state: &mut State, call: &Call, moves: &mut [u16]) -> Reply<Answer> {
    let count = state.board.domains as usize;
    fields_by(state, call, moves, |quotas, domain, quota| {
        quotas[domain] = quota;
        quotas[count % DOMAINS] = quota;
    })
}

fn first_field(state: &mut State, call: &Call, moves: &mut [u16]) -> Reply<Answer> {
    fields_by(state, call, moves, |quotas, _, quota| quotas[0] = quota)
}

fn no_field(state: &mut State, call: &Call, moves: &mut [u16]) -> Reply<Answer> {
    fields_by(state, call, moves, |_, _, _| ())
}

/// The field is changed where the quota is refused, too.
fn though_refused(state: &mut State, call: &Call, moves: &mut [u16]) -> Reply<Answer> {
    let reply = state.call(call, moves);
    match *call {
        Call::SetQuota { domain, quota } if reply == Reply::refused(27) => {
            state.board.quotas[domain as usize] = quota;
        }
        _ => {}
    }
    reply
}

/// The answer is the quota before.
fn former_answered(state: &mut State, call: &Call, moves: &mut [u16]) -> Reply<Answer> {
    let quotas = state.board.quotas;
    match state.call(call, moves) {
        Reply::Answer(Answer::Quota(_)) => {
            Reply::Answer(Answer::Quota(quotas[call.domain() as usize]))
        }
        reply => reply,
    }
}

/// Colours tells the quota of domain 0.
pub fn first_told(state: &mut State, call: &Call, moves: &mut [u16]) -> Reply<Answer> {
    match state.call(call, moves) {
        Reply::Answer(Answer::Active { set, .. }) => {
            let quota = state.board.quotas[0];
            Reply::Answer(Answer::Active { set, quota })
        }
        reply => reply,
    }
}

/// Colours tells how many frames are left of the quota.
fn left_told(state: &mut State, call: &Call, moves: &mut [u16]) -> Reply<Answer> {
    match state.call(call, moves) {
        Reply::Answer(Answer::Active { set, quota }) => {
            let held = frames_held(&state.table, call.domain()) as u32;
            let quota = quota.saturating_sub(held);
            Reply::Answer(Answer::Active { set, quota })
        }
        reply => reply,
    }
}

/// Recolouring is refused while this holds of the frames held and the quota.
fn recolouring_stopped(
    state: &mut State,
    call: &Call,
    moves: &mut [u16],
    stops: impl Fn(usize, usize) -> bool,
) -> Reply<Answer> {
    let (start, list) = (state.clone(), moves.to_vec());
    let reply = state.call(call, moves);
    let Reply::Answer(Answer::Moved(_)) = reply else {
        return reply;
    };
    let domain = call.domain();
    if !stops(frames_held(&start.table, domain), quota(&start, domain)) {
        return reply;
    }
    *state = start;
    moves.copy_from_slice(&list);
    Reply::refused(28)
}

/// Recolouring makes no more moves than the quota.
fn moves_up_to_quota(state: &mut State, call: &Call, moves: &mut [u16]) -> Reply<Answer> {
    let (start, list) = (state.clone(), moves.to_vec());
    match state.call(call, moves) {
        Reply::Answer(Answer::Moved(count)) if count > quota(&start, call.domain()) => {
            *state = start;
            moves.copy_from_slice(&list);
            Reply::refused(12)
        }
        reply => reply,
    }
}

/// Recolouring leaves the quota of a new set, 4,096.
fn set_anew(state: &mut State, call: &Call, moves: &mut [u16]) -> Reply<Answer> {
    let reply = state.call(call, moves);
    if let Reply::Answer(Answer::Moved(_)) = reply {
        state.board.quotas[call.domain() as usize] = QUOTA;
    }
    reply
}

/// A board quota passes 26 that should not, by its domain and value, and is then no limit.
fn passing(
    state: &mut State,
    call: &Call,
    moves: &mut [u16],
    passes: impl Fn(u32, u32) -> bool,
) -> Reply<Answer> {
    let quotas = state.board.quotas;
    for (domain, quota) in (0..).zip(&mut state.board.quotas) {
        if no_quota(*quota) && passes(domain, *quota) {
            *quota = QUOTA;
        }
    }
    let reply = state.call(call, moves);
    let set = matches!(reply, Reply::Answer(Answer::Quota(_))).then_some(call.domain());
    for (domain, quota) in (0..).zip(quotas) {
        if set != Some(domain) {
            state.board.quotas[domain as usize] = quota;
        }
    }
    reply
}

/// 26 by another test of the board, which refuses more.
fn refused_too(
    state: &mut State,
    call: &Call,
    moves: &mut [u16],
    at_fault: impl Fn(&State) -> bool,
) -> Reply<Answer> {
    let (start, list) = (state.clone(), moves.to_vec());
    let reply = state.call(call, moves);
    match reply {
        Reply::Refused { number: 2..=7, .. } => reply,
        _ if at_fault(&start) => {
            *state = start;
            moves.copy_from_slice(&list);
            Reply::refused(26)
        }
        _ => reply,
    }
}

/// 26 tests the fields of all eight domains.
fn all_fields(state: &mut State, call: &Call, moves: &mut [u16]) -> Reply<Answer> {
    refused_too(state, call, moves, |state| {
        state.board.quotas.iter().any(|quota| no_quota(*quota))
    })
}

/// 26 tests one field more than there are domains.
fn field_more(state: &mut State, call: &Call, moves: &mut [u16]) -> Reply<Answer> {
    refused_too(state, call, moves, |state| {
        let count = (state.board.domains as usize + 1).min(DOMAINS);
        let mut quotas = state.board.quotas[..count].iter();
        quotas.any(|quota| no_quota(*quota))
    })
}

/// 26 refuses 4,096.
fn highest_spoils(state: &mut State, call: &Call, moves: &mut [u16]) -> Reply<Answer> {
    refused_too(state, call, moves, |state| {
        let count = state.board.domains as usize;
        let mut quotas = state.board.quotas[..count].iter();
        quotas.any(|quota| *quota == 0 || *quota >= QUOTA)
    })
}

/// 26 tests the calling domain's field alone.
fn own_field(state: &mut State, call: &Call, moves: &mut [u16]) -> Reply<Answer> {
    passing(state, call, moves, |domain, _| domain != call.domain())
}

/// 26 does not test the field of the last domain.
fn last_field_passes(state: &mut State, call: &Call, moves: &mut [u16]) -> Reply<Answer> {
    let count = state.board.domains;
    passing(state, call, moves, |domain, _| domain + 1 == count)
}

fn none_passes(state: &mut State, call: &Call, moves: &mut [u16]) -> Reply<Answer> {
    passing(state, call, moves, |_, quota| quota == 0)
}

fn more_passes(state: &mut State, call: &Call, moves: &mut [u16]) -> Reply<Answer> {
    passing(state, call, moves, |_, quota| quota > QUOTA)
}

fn one_more_passes(state: &mut State, call: &Call, moves: &mut [u16]) -> Reply<Answer> {
    passing(state, call, moves, |_, quota| quota == QUOTA + 1)
}

/// 26 tests the 16 low bits of a field.
fn low_bits(state: &mut State, call: &Call, moves: &mut [u16]) -> Reply<Answer> {
    passing(state, call, moves, |_, quota| !no_quota(quota % (1 << 16)))
}

/// 26 before 5 to 7.
fn before_sets(state: &mut State, call: &Call, moves: &mut [u16]) -> Reply<Answer> {
    let reply = state.call(call, moves);
    match reply {
        Reply::Refused { number: 5..=7, .. } if spoilt(state) => Reply::refused(26),
        _ => reply,
    }
}

/// 26 before 7 and after 6.
fn before_active(state: &mut State, call: &Call, moves: &mut [u16]) -> Reply<Answer> {
    let reply = state.call(call, moves);
    match reply {
        Reply::Refused { number: 7, .. } if spoilt(state) => Reply::refused(26),
        _ => reply,
    }
}

/// 26 after 8.
fn after_domain(state: &mut State, call: &Call, moves: &mut [u16]) -> Reply<Answer> {
    let reply = state.call(call, moves);
    match reply == Reply::refused(26) && call.domain() >= state.board.domains {
        true => Reply::refused(8),
        false => reply,
    }
}

/// 26 after 9 and 10.
fn after_arguments(state: &mut State, call: &Call, moves: &mut [u16]) -> Reply<Answer> {
    let reply = state.call(call, moves);
    if reply != Reply::refused(26) {
        return reply;
    }
    match unlimited(&mut state.clone(), call, &mut moves.to_vec()) {
        other @ Reply::Refused { number: 9 | 10, .. } => other,
        _ => reply,
    }
}

/// The row of 26 is the lowest domain at fault.
fn named(state: &mut State, call: &Call, moves: &mut [u16]) -> Reply<Answer> {
    let reply = state.call(call, moves);
    match reply == Reply::refused(26) {
        true => Reply::Refused {
            number: 26,
            row: (0..)
                .zip(state.board.quotas)
                .find(|(_, quota)| no_quota(*quota))
                .map_or(0, |(domain, _)| domain),
        },
        false => reply,
    }
}

/// The rows of 27 and 28 are the domain.
fn caller_named(state: &mut State, call: &Call, moves: &mut [u16]) -> Reply<Answer> {
    match state.call(call, moves) {
        Reply::Refused { number, .. } if [27, 28].contains(&number) => Reply::Refused {
            number,
            row: call.domain(),
        },
        reply => reply,
    }
}

/// Each of the calls without 26.
const UNTESTED: [(&str, Reading); 6] = [
    ("look without 26", |state, call, moves| {
        let untested = matches!(call, Call::Look { .. });
        passing(state, call, moves, |_, _| untested)
    }),
    ("fault without 26", |state, call, moves| {
        let untested = matches!(call, Call::Fault { .. });
        passing(state, call, moves, |_, _| untested)
    }),
    ("release without 26", |state, call, moves| {
        let untested = matches!(call, Call::Release { .. });
        passing(state, call, moves, |_, _| untested)
    }),
    ("colours without 26", |state, call, moves| {
        let untested = matches!(call, Call::Colours { .. });
        passing(state, call, moves, |_, _| untested)
    }),
    ("recolour without 26", |state, call, moves| {
        let untested = matches!(call, Call::Recolour { .. });
        passing(state, call, moves, |_, _| untested)
    }),
    ("set quota without 26", |state, call, moves| {
        let untested = matches!(call, Call::SetQuota { .. });
        passing(state, call, moves, |_, _| untested)
    }),
];

const OTHERS: [(&str, Reading); 44] = [
    ("28 only above the quota", only_above),
    ("28 one frame early", one_early),
    ("28 never", never_full),
    ("28 after 12", frames_first),
    ("28 for a mapped page", mapped_too),
    ("28 before 10", quota_before_page),
    ("a quota below the frames held", below_held),
    ("the frames held refused as a quota", above_held),
    ("a quota of 0", none_taken),
    ("a quota of 4,097", more_taken),
    ("a quota of 4,096 refused", highest_refused),
    ("a quota above F refused", up_to_frames),
    ("the old quota refused", old_refused),
    ("a higher quota refused", only_lowered),
    ("the quota asked for cut to 16 bits", asked_cut),
    ("27 before 8", asked_before_domain),
    ("27 before 26", asked_before_board),
    ("the next domain's field changed too", next_too),
    ("a field beyond the count changed too", field_beyond_too),
    ("domain 0's field changed", first_field),
    ("no field changed", no_field),
    ("the field changed on a refusal", though_refused),
    ("the quota before answered", former_answered),
    ("domain 0's quota told", first_told),
    ("the rest of the quota told", left_told),
    (
        "recolouring stopped above the quota",
        |state, call, moves| recolouring_stopped(state, call, moves, |held, quota| held > quota),
    ),
    ("recolouring stopped at the quota", |state, call, moves| {
        recolouring_stopped(state, call, moves, |held, quota| held == quota)
    }),
    ("no more moves than the quota", moves_up_to_quota),
    ("4,096 after a recolouring", set_anew),
    ("26 for all fields", all_fields),
    ("26 for a field more", field_more),
    ("26 for 4,096", highest_spoils),
    ("26 for the calling domain alone", own_field),
    ("26 without the last domain", last_field_passes),
    ("26 without 0", none_passes),
    ("26 without quotas above 4,096", more_passes),
    ("26 without 4,097", one_more_passes),
    ("26 by 16 bits", low_bits),
    ("26 before 5", before_sets),
    ("26 before 7", before_active),
    ("26 after 8", after_domain),
    ("26 after 9 and 10", after_arguments),
    ("26 with a row", named),
    ("27 and 28 with a row", caller_named),
];

/// The wrong readings of this file but for those that count frames.
pub fn wrong() -> impl Iterator<Item = (&'static str, Reading)> {
    UNTESTED.into_iter().chain(OTHERS)
}
