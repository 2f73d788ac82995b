//! The domain rule, run on random histories: document 01, "The words of demand 3", with the move list as it is
//! written (document 02, No. 4) and the quota (No. 6). Two histories that leave a domain the same colours, quota and
//! map, its own calls replayed alone, must give it the same answers and lists ever after, whatever the others do; two
//! that do not are told apart by one call. No domain ever holds more frames than its quota. A recolouring that is taken
//! back, with only other domains' calls between, leaves the domain what it had (No. 10). And what a planner relies on
//! of document 02, No. 7: as long as a domain neither releases nor moves frames, its frames lie evenly over its active
//! colours, as far as these have free frames.

use std::collections::BTreeSet;

use crate::model::cache::colours;
use crate::model::frames::{
    frames_held, no_quota, page_held, word, Answer, Board, Call, State, FREE, PAGES, QUOTA,
    RESERVED,
};
use crate::model::reply::Reply;
use crate::random::boards::{
    accepted, any_domain, any_page, any_set, empty_table, part_of, NO_QUOTAS,
};
use crate::random::lists::{any_take_back, shuffled, spoil};
use crate::random::Random;

/// What a call tells its domain: the reply, and the move list that it was lent as it stands afterwards.
#[derive(Clone, Debug, PartialEq, Eq)]
pub(crate) struct Answered {
    pub(crate) reply: Reply<Answer>,
    pub(crate) list: Vec<u16>,
}

/// How calls run: as in the model, or in a test as in a loader that does wrong.
pub(crate) type Step = fn(&mut State, &Call) -> Answered;

pub(crate) fn step(state: &mut State, call: &Call) -> Answered {
    answered(call, |list| state.call(call, list))
}

/// What a call is answered that runs so, with a move list of its own.
pub(crate) fn answered(call: &Call, run: impl FnOnce(&mut [u16]) -> Reply<Answer>) -> Answered {
    let mut list = vec![7; call.room()];
    let reply = run(&mut list);
    Answered { reply, list }
}

#[derive(Clone, Copy, Debug, Default)]
pub struct Tally {
    pub histories: u32,
    /// Pairs of histories, for one domain, with the same colours, quota and map.
    pub equal: u32,
    /// Those among them whose own calls are not the same.
    pub equal_by_other_calls: u32,
    pub unequal: u32,
    /// Those among them with the same colours and map.
    pub unequal_by_quota: u32,
    /// Histories in which 28 occurs; that end with a domain at its quota; that 26 refuses.
    pub full: u32,
    pub at_quota: u32,
    pub spoilt: u32,
    /// Histories in which a taking back moves frames; in which one is refused 31; 32.
    pub taking_back: u32,
    pub bad_list: u32,
    pub left_outside: u32,
    /// Recolourings that were taken back after calls of others; those with moves; those among them with a table or
    /// board that others changed meanwhile.
    pub taken_back: u32,
    pub moved_back: u32,
    pub beside_others: u32,
    pub violations: u32,
}

impl Tally {
    /// No violation, and enough of each kind that this says something.
    pub fn good(&self) -> bool {
        let tenth = self.histories / 10;
        let enough = self.equal > tenth
            && self.unequal > tenth
            && self.equal_by_other_calls > self.histories / 50
            && self.unequal_by_quota > self.histories / 50
            && self.full > self.histories / 20
            && self.at_quota > tenth
            && self.spoilt > self.histories / 50
            && self.taking_back > self.histories / 20
            && self.bad_list > tenth
            && self.left_outside > self.histories / 50
            && self.taken_back > self.histories / 2
            && self.moved_back > tenth
            && self.beside_others > self.histories / 20;
        enough && self.violations == 0
    }

    /// Counts what a history shows of quotas and takings back: the state after it, and what each call was answered.
    fn count_replies(&mut self, history: &[Call], state: &State, answers: &[Answered]) {
        let board = &state.board;
        let refused = |number| {
            let refusal = Reply::refused(number);
            answers.iter().any(|answered| answered.reply == refusal)
        };
        let at_quota = |d: u32| frames_held(&state.table, d) == board.quotas[d as usize] as usize;
        self.full += u32::from(refused(28));
        self.at_quota += u32::from((0..board.domains).any(at_quota));
        self.spoilt += u32::from(refused(26));
        let moves_back = |(call, answered): (&Call, &Answered)| {
            matches!(call, Call::TakeBack { .. })
                && matches!(answered.reply, Reply::Answer(Answer::Moved(1..)))
        };
        self.taking_back += u32::from(history.iter().zip(answers).any(moves_back));
        self.bad_list += u32::from(refused(31));
        self.left_outside += u32::from(refused(32));
    }

    /// Counts a violation, and prints the first.
    fn violation(&mut self, what: impl Fn() -> String) {
        if self.violations == 0 {
            println!("{}", what());
        }
        self.violations += 1;
    }

    pub fn report(&self) {
        println!(
            "{} histories, {} equal, {} unequal, {} violations",
            self.histories, self.equal, self.unequal, self.violations
        );
        println!(
            "of the equal ones, {} by other calls of the domain itself; of the unequal ones, {} by the quota alone",
            self.equal_by_other_calls, self.unequal_by_quota
        );
        println!(
            "28 in {} histories, a domain at its quota after {}; a board quota at fault in {}",
            self.full, self.at_quota, self.spoilt
        );
        println!(
            "frames moved back in {} histories, 31 in {}, 32 in {}; {} recolourings taken back, {} with moves, {} of \
             these after changes by others",
            self.taking_back,
            self.bad_list,
            self.left_outside,
            self.taken_back,
            self.moved_back,
            self.beside_others
        );
    }
}

/// Checks pairs of random histories.
pub fn check(seed: u64, pairs: u32) -> Tally {
    check_step(seed, pairs, step)
}

fn check_step(seed: u64, pairs: u32, step: Step) -> Tally {
    let mut random = Random::new(seed);
    let mut tally = Tally::default();
    for _ in 0..pairs {
        let trial = Trial::new(&mut random, step);
        let h = trial.history(&mut random);
        let k = trial.changed(&mut random, &h);
        tally.histories += 2;
        for history in [&h, &k] {
            let (state, answers) = trial.run(&trial.start, history);
            tally.count_replies(history, &state, &answers);
            if !trial.kept(&state) {
                tally.violation(|| format!("not kept: {:?} {history:?}", trial.start));
            }
            if !trial.restored(&mut random, &mut tally, &state) {
                tally.violation(|| format!("not restored: {:?} {history:?}", trial.start));
            }
        }
        for domain in 0..trial.start.board.domains {
            trial.compare(&mut random, &mut tally, domain, &h, &k);
        }
        if !trial.others_quotas_unseen(&mut random, &h) {
            tally.violation(|| format!("quota calls of others: {:?} {h:?}", trial.start));
        }
        if !trial.others_lists_unseen(&mut random, &h) {
            tally.violation(|| format!("takings back of others: {:?} {h:?}", trial.start));
        }
    }
    tally
}

/// How evenly the frames lie of domains that have neither released nor moved frames: a look after each call at
/// each such domain.
#[derive(Clone, Copy, Debug, Default)]
pub struct Evenness {
    pub looks: u32,
    /// Those with one frame more in an active colour than in another that has a free frame.
    pub by_one: u32,
    /// Those with two frames or more beyond another that has no free frame.
    pub by_more: u32,
    /// Those with two frames or more beyond another that has one.
    pub violations: u32,
}

impl Evenness {
    /// No violation, and enough of each kind that this says something.
    pub fn good(&self) -> bool {
        let enough = self.by_one > self.looks / 10 && self.by_more > self.looks / 100;
        enough && self.violations == 0
    }

    pub fn report(&self) {
        println!(
            "{} looks at a domain that has only taken frames, {} uneven by one, {} by more than one for want of \
             free frames, {} violations",
            self.looks, self.by_one, self.by_more, self.violations
        );
    }

    fn look(&mut self, state: &State, domain: u32) {
        let n = state.board.colours as usize;
        let first = word(domain, 0);
        let own = |held: u16| (first..first + u64::from(PAGES)).contains(&held.into());
        let count = |colour: u32, counts: &dyn Fn(u16) -> bool| {
            let words = state.table.iter().skip(colour as usize).step_by(n);
            words.filter(|held| counts(**held)).count()
        };
        let active: Vec<(usize, bool)> = colours(state.board.active[domain as usize])
            .into_iter()
            .map(|colour| (count(colour, &own), count(colour, &|held| held == FREE) > 0))
            .collect();
        // the most held of any active colour, beyond what is held of one with a free frame, or of one without
        let most = active.iter().map(|(held, _)| *held).max().unwrap_or(0);
        let beyond = |free: bool| {
            let colours = active.iter().filter(|(_, has_free)| *has_free == free);
            colours.map(|(held, _)| most - held).max().unwrap_or(0)
        };
        self.looks += 1;
        self.by_one += u32::from(beyond(true) == 1);
        self.by_more += u32::from(beyond(false) > 1);
        if beyond(true) > 1 {
            if self.violations == 0 {
                println!("uneven: domain {domain}, {state:?}");
            }
            self.violations += 1;
        }
    }
}

/// Looks at the domains during random histories.
pub fn check_even(seed: u64, histories: u32) -> Evenness {
    check_even_step(seed, histories, step)
}

fn check_even_step(
    seed: u64,
    histories: u32,
    step: impl Fn(&mut State, &Call) -> Answered,
) -> Evenness {
    let mut random = Random::new(seed);
    let mut evenness = Evenness::default();
    for _ in 0..histories {
        let trial = Trial::new(&mut random, self::step);
        let mut state = trial.start.clone();
        let mut only_took = vec![true; state.board.domains as usize];
        for call in trial.filling(&mut random) {
            let answered = step(&mut state, &call);
            if let Reply::Answer(Answer::Freed(_) | Answer::Moved(_)) = answered.reply {
                only_took[call.domain() as usize] = false;
            }
            for domain in 0..state.board.domains {
                if only_took[domain as usize] {
                    evenness.look(&state, domain);
                }
            }
        }
    }
    evenness
}

/// The set that colours told.
fn active_set(answered: &Answered) -> Option<u32> {
    match answered.reply {
        Reply::Answer(Answer::Active { set, .. }) => Some(set),
        _ => None,
    }
}

/// The frame that look gives for each page.
fn map(table: &[u16], domain: u32) -> Vec<Option<usize>> {
    let mut frames = vec![None; PAGES as usize];
    for (frame, held) in table.iter().enumerate().rev() {
        if let Some(page) = page_held(domain, *held) {
            frames[usize::from(page)] = Some(frame);
        }
    }
    frames
}

/// Whether none of the words stands there twice.
pub(crate) fn once(mut words: impl Iterator<Item = u16>) -> bool {
    let mut met = BTreeSet::new();
    words.all(|held| met.insert(held))
}

fn own(history: &[Call], domain: u32) -> Vec<Call> {
    let named = history.iter().filter(|call| call.domain() == domain);
    named.cloned().collect()
}

/// Gives the board quotas, many of them low, and now and then one that 26 refuses; the fields of domains beyond the
/// count hold anything.
fn limit(random: &mut Random, board: &mut Board) {
    let count = board.domains as usize;
    for (domain, quota) in board.quotas.iter_mut().enumerate() {
        let low = 1 + random.below(4) as u32;
        let any = random.pick(&NO_QUOTAS);
        *quota = match domain < count {
            true => random.pick(&[QUOTA, QUOTA, QUOTA, low, low]),
            false => random.pick(&[QUOTA, low, any, any]),
        };
    }
    if random.below(16) == 0 {
        board.quotas[random.below(count as u64) as usize] = random.pick(&NO_QUOTAS);
    }
}

/// A quota to ask for: a low one as a rule, now and then none at all.
fn asked_quota(random: &mut Random) -> u32 {
    match random.below(8) {
        0 => random.pick(&NO_QUOTAS),
        1 | 2 => QUOTA,
        3 => 1 + random.below(QUOTA.into()) as u32,
        _ => 1 + random.below(7) as u32,
    }
}

/// An accepted board, an empty table and a few pages that calls name again and again.
pub(crate) struct Trial {
    pub(crate) start: State,
    pub(crate) pages: Vec<u32>,
    pub(crate) step: Step,
}

impl Trial {
    pub(crate) fn new(random: &mut Random, step: Step) -> Self {
        let n = random.pick(&[1, 2, 4, 4, 8, 8, 8, 16]);
        // seldom one domain alone, where there is nothing to keep apart
        let domains = random.pick(&[1, 2, 2, 2, 3, 3, 4, 8]).min(n) as u32;
        let frames = 1 + random.below(6 * n) as u32;
        let mut board = accepted(random, n as u32, frames, domains);
        limit(random, &mut board);
        let table = empty_table(random, frames);
        let mut pages = vec![random.pick(&[0, PAGES - 1])];
        // with many pages a domain holds several frames of a colour, and the choice shows
        let most = random.pick(&[4, 14]);
        for _ in 0..1 + random.below(most) {
            pages.push(random.below(PAGES.into()) as u32);
        }
        Trial {
            start: State { board, table },
            pages,
            step,
        }
    }

    /// The state after the history, and what each call was answered.
    fn run(&self, from: &State, history: &[Call]) -> (State, Vec<Answered>) {
        let mut state = from.clone();
        let answers = history
            .iter()
            .map(|call| (self.step)(&mut state, call))
            .collect();
        (state, answers)
    }

    /// What the domain's own calls of a later list are answered.
    fn answers(&self, from: &State, later: &[Call], domain: u32) -> Vec<Answered> {
        let (_, answers) = self.run(from, later);
        let all = later.iter().zip(answers);
        all.filter(|(call, _)| call.domain() == domain)
            .map(|(_, answered)| answered)
            .collect()
    }

    /// Colours, then look for each page that calls name and for some others: the colours, the quota and the map.
    fn probes(&self, random: &mut Random, domain: u32, named: &[Call]) -> Vec<Call> {
        let mut pages = self.pages.clone();
        pages.extend([0, 1, PAGES - 2, PAGES - 1]);
        pages.extend((0..4).map(|_| random.below(PAGES.into()) as u32));
        for call in named {
            if let Call::Fault { page, .. } | Call::Release { page, .. } = *call {
                pages.push(page % PAGES);
            }
        }
        pages.sort();
        pages.dedup();
        let looks = pages.into_iter().map(|page| Call::Look { domain, page });
        std::iter::once(Call::Colours { domain })
            .chain(looks)
            .collect()
    }

    /// The domain rule for one domain and two histories.
    fn compare(&self, random: &mut Random, tally: &mut Tally, domain: u32, h: &[Call], k: &[Call]) {
        let (own_h, own_k) = (own(h, domain), own(k, domain));
        let probes = self.probes(random, domain, &[h, k].concat());
        let seen_after = |calls: &[Call]| {
            let (state, _) = self.run(&self.start, calls);
            self.answers(&state, &probes, domain)
        };
        let (after_h, _) = self.run(&self.start, h);
        let (after_k, _) = self.run(&self.start, k);
        let (seen_h, seen_k) = (seen_after(&own_h), seen_after(&own_k));
        let good = if seen_h == seen_k {
            tally.equal += 1;
            tally.equal_by_other_calls += u32::from(own_h != own_k);
            (0..3).all(|_| self.same_later(random, domain, &after_h, &after_k))
        } else {
            tally.unequal += 1;
            let sets = [&seen_h, &seen_k].map(|seen| active_set(&seen[0]));
            let by_quota = sets[0] == sets[1] && seen_h[1..] == seen_k[1..];
            tally.unequal_by_quota += u32::from(by_quota);
            probes.iter().any(|probe| {
                let later = std::slice::from_ref(probe);
                self.answers(&after_h, later, domain) != self.answers(&after_k, later, domain)
            })
        };
        if !good {
            tally.violation(|| format!("domain {domain}: {:?} {h:?} {k:?}", self.start));
        }
    }

    /// Whether two later lists with the same own calls, and others' calls drawn for each apart, give the
    /// domain the same answers.
    fn same_later(&self, random: &mut Random, domain: u32, h: &State, k: &State) -> bool {
        let mut drawn = Drawn::new(self, h);
        for _ in 0..1 + random.below(8) {
            drawn.add_of(random, domain);
        }
        // at the end one that lists several moves, which is rare among the others, and it may be taken back
        let set = part_of(random, self.start.board.grants[domain as usize]);
        let room = 60;
        drawn.add(Call::Recolour { domain, set, room });
        if random.below(2) == 0 {
            let call = drawn.take_back(random, domain);
            drawn.add(call);
        }
        let calls = drawn.calls;
        let l = self.woven(random, h, domain, &calls);
        let m = self.woven(random, k, domain, &calls);
        let kept = [(h, &l), (k, &m)]
            .into_iter()
            .all(|(from, later)| self.kept(&self.run(from, later).0));
        kept && self.answers(h, &l, domain) == self.answers(k, &m, domain)
    }

    /// Whether no quota call of another domain after the history changes what a domain sees.
    fn others_quotas_unseen(&self, random: &mut Random, history: &[Call]) -> bool {
        let (after, _) = self.run(&self.start, history);
        let domain = random.below(self.start.board.domains.into()) as u32;
        let probes = self.probes(random, domain, history);
        let seen = self.answers(&after, &probes, domain);
        (0..3).all(|_| {
            let call = Call::SetQuota {
                domain: self.other_domain(random, domain),
                quota: asked_quota(random),
            };
            let (later, _) = self.run(&after, &[call]);
            self.answers(&later, &probes, domain) == seen
        })
    }

    /// Whether no taking back of another domain after the history changes what a domain sees, whatever its list.
    fn others_lists_unseen(&self, random: &mut Random, history: &[Call]) -> bool {
        let (after, _) = self.run(&self.start, history);
        let domain = random.below(self.start.board.domains.into()) as u32;
        let probes = self.probes(random, domain, history);
        let seen = self.answers(&after, &probes, domain);
        (0..8).all(|_| {
            let other = self.other_domain(random, domain);
            let call = any_take_back(random, &after, other);
            let (later, _) = self.run(&after, &[call]);
            self.kept(&later) && self.answers(&later, &probes, domain) == seen
        })
    }

    /// Document 02, No. 10: "In a history from an empty table, after an accepted recolouring with only other domains'
    /// calls between, it restores the domain's map and set", and answers the recolouring's count. Given is the state
    /// before the recolouring. Where this is refused, nothing is to be taken back.
    fn restored(&self, random: &mut Random, tally: &mut Tally, before: &State) -> bool {
        let domain = random.below(before.board.domains.into()) as u32;
        let here = domain as usize;
        let room = 3 * before.table.len();
        // of some recolourings one that moves frames, if there is one
        let mut recoloured = (0..4).map(|_| {
            let set = part_of(random, before.board.grants[here]);
            let mut state = before.clone();
            let told = (self.step)(&mut state, &Call::Recolour { domain, set, room });
            (state, told)
        });
        let first = recoloured.next().expect("there are some");
        let moves =
            |(_, told): &(State, Answered)| matches!(told.reply, Reply::Answer(Answer::Moved(1..)));
        let (state, told) = match moves(&first) {
            true => first,
            false => recoloured.find(moves).unwrap_or(first),
        };
        let Reply::Answer(Answer::Moved(count)) = told.reply else {
            return true;
        };
        let mut drawn = Drawn::new(self, &state);
        for _ in 0..random.below(10) {
            let other = self.other_domain(random, domain);
            drawn.add_of(random, other);
        }
        let changed = drawn.state != state;
        tally.taken_back += 1;
        tally.moved_back += u32::from(count > 0);
        tally.beside_others += u32::from(count > 0 && changed);
        let set = before.board.active[here];
        let mut list = told.list[..3 * count].to_vec();
        if random.below(3) == 0 {
            list = shuffled(random, &list);
        }
        let mut after = drawn.state;
        let told = (self.step)(&mut after, &Call::TakeBack { domain, set, list });
        let fields = |state: &State| [state.board.active, state.board.quotas].map(|f| f[here]);
        told.reply == Reply::Answer(Answer::Moved(count))
            && fields(&after) == fields(before)
            && map(&after.table, domain) == map(&before.table, domain)
            && self.kept(&after)
    }

    /// Whether no domain holds more frames than its quota. Where 26 refuses the board, nothing changes at all.
    fn within_quotas(&self, state: &State) -> bool {
        let count = self.start.board.domains as usize;
        let (before, now) = (&self.start.board.quotas, &state.board.quotas);
        if before[..count].iter().any(|quota| no_quota(*quota)) {
            return *state == self.start;
        }
        let within = |domain: usize| {
            let held = frames_held(&state.table, domain as u32);
            !no_quota(now[domain]) && held <= now[domain] as usize
        };
        (0..count).all(within) && now[count..] == before[count..]
    }

    /// What no history changes: no two domains hold frames of one colour, words reserved at the start
    /// and no others are reserved, no page of a domain has two frames, and no domain is above its quota.
    fn kept(&self, state: &State) -> bool {
        let held = |word: &(usize, u16)| ![FREE, RESERVED].contains(&word.1);
        let words = || state.table.iter().copied().enumerate().filter(held);
        let n = state.board.colours as usize;
        let mut holders = vec![None; n];
        let one_holder = |(frame, held): (usize, u16)| {
            let holder = (u32::from(held) - 1) / PAGES;
            *holders[frame % n].get_or_insert(holder) == holder
        };
        self.within_quotas(state)
            && self.reserved_kept(state)
            && once(words().map(|(_, held)| held))
            && words().all(one_holder)
    }

    /// Whether words reserved at the start and no others are reserved.
    pub(crate) fn reserved_kept(&self, state: &State) -> bool {
        let reserved = |held: &u16| *held == RESERVED;
        let now = state.table.iter().map(reserved);
        self.start.table.iter().map(reserved).eq(now)
    }

    fn call_of(&self, random: &mut Random, domain: u32) -> Call {
        let page = any_page(random, &self.pages);
        let grants = self.start.board.grants;
        let grant = grants.get(domain as usize).unwrap_or(&1);
        let set = match random.below(3) {
            0 => any_set(random, *grant),
            _ => part_of(random, *grant),
        };
        let room = random.pick(&[0, 2, 3, 5, 6, 9, 30, 30]);
        let quota = asked_quota(random);
        match random.below(14) {
            0 => Call::Look { domain, page },
            1..=6 => Call::Fault { domain, page },
            7 | 8 => Call::Release { domain, page },
            9 => Call::Colours { domain },
            10 | 11 => Call::SetQuota { domain, quota },
            _ => Call::Recolour { domain, set, room },
        }
    }

    /// Any other number.
    pub(crate) fn other_domain(&self, random: &mut Random, domain: u32) -> u32 {
        match any_domain(random, self.start.board.domains) {
            same if same == domain => self.start.board.domains,
            other => other,
        }
    }

    fn history(&self, random: &mut Random) -> Vec<Call> {
        self.drawn(random).calls
    }

    /// A history from the start, and the state after it.
    pub(crate) fn drawn(&self, random: &mut Random) -> Drawn<'_> {
        let each = 4 + self.pages.len() as u64;
        let domains = self.start.board.domains;
        let length = random.below(4 + each * u64::from(domains));
        let mut drawn = Drawn::new(self, &self.start);
        for _ in 0..length {
            let domain = any_domain(random, domains);
            drawn.add_of(random, domain);
        }
        drawn
    }

    /// Faults of pages that are seldom mapped, and any calls of one domain, perhaps; the others' releases,
    /// recolourings and takings back are refused as a rule.
    fn filling(&self, random: &mut Random) -> Vec<Call> {
        let domains = self.start.board.domains;
        let other = random.below(2 * u64::from(domains)) as u32;
        let length = random.below(3 * u64::from(self.start.board.frames) + 8);
        let mut drawn = Drawn::new(self, &self.start);
        for _ in 0..length {
            let domain = any_domain(random, domains);
            if domain == other {
                drawn.add_of(random, domain);
                continue;
            }
            let page = random.below(PAGES.into()) as u32;
            let grant = self.start.board.grants.get(domain as usize).unwrap_or(&1);
            let part = part_of(random, *grant);
            let set = random.pick(&[0, part, part | 1 << 16]);
            let room = 0;
            let list = vec![page as u16];
            drawn.add(match random.below(12) {
                0 => Call::Release { domain, page },
                1 if random.below(2) == 0 => Call::TakeBack { domain, set, list },
                1 => Call::Recolour { domain, set, room },
                2 => Call::Look { domain, page },
                _ => Call::Fault { domain, page },
            });
        }
        drawn.calls
    }

    /// The own calls in their order, with new calls of the others anywhere among them.
    fn woven(&self, random: &mut Random, from: &State, domain: u32, calls: &[Call]) -> Vec<Call> {
        let mut drawn = Drawn::new(self, from);
        for place in 0..=calls.len() {
            while random.below(2) == 0 {
                let other = self.other_domain(random, domain);
                drawn.add_of(random, other);
            }
            if let Some(call) = calls.get(place) {
                drawn.add(call.clone());
            }
        }
        drawn.calls
    }

    /// Another history made from this one, so that for some domain both often come to the same.
    fn changed(&self, random: &mut Random, history: &[Call]) -> Vec<Call> {
        let domain = random.below(self.start.board.domains.into()) as u32;
        let mut calls = own(history, domain);
        let place = random.below(calls.len() as u64 + 1) as usize;
        let mut drawn = Drawn::new(self, &self.start);
        for call in &calls[..place] {
            drawn.add(call.clone());
        }
        match random.below(10) {
            0 => return self.history(random),
            1 => {
                // the others' calls of this history, in other places and some left out
                let mut all: Vec<Call> = history
                    .iter()
                    .filter(|call| call.domain() == domain || random.below(3) > 0)
                    .cloned()
                    .collect();
                random.shuffle(&mut all);
                let places = all.iter_mut().filter(|call| call.domain() == domain);
                for (place, call) in places.zip(calls) {
                    *place = call;
                }
                return all;
            }
            2 => calls.insert(place, drawn.call_of(random, domain)),
            3 if place < calls.len() => {
                calls.remove(place);
            }
            4 if place < calls.len() => calls[place] = drawn.call_of(random, domain),
            5 if place + 1 < calls.len() => calls.swap(place, place + 1),
            6 => {
                let page = random.pick(&self.pages);
                calls.insert(place, Call::Fault { domain, page });
                calls.insert(place + 1, Call::Release { domain, page });
            }
            7 => {
                // another quota for a while
                let before = drawn.state.board.quotas[domain as usize];
                let set = [asked_quota(random), before];
                let set = set.map(|quota| Call::SetQuota { domain, quota });
                calls.splice(place..place, set);
            }
            8 => {
                // another set for a while
                let set = part_of(random, self.start.board.grants[domain as usize]);
                let room = 3 * self.start.table.len();
                drawn.add(Call::Recolour { domain, set, room });
                if let Some(Done { former, list, .. }) = drawn.done.pop() {
                    let (set, list) = (former, list.clone());
                    drawn.add(Call::TakeBack { domain, set, list });
                }
                calls.splice(place..place, drawn.calls.drain(place..));
            }
            _ => {}
        }
        self.woven(random, &self.start, domain, &calls)
    }
}

/// A recolouring that was accepted: the set before it, and the triples that it wrote.
struct Done {
    domain: u32,
    former: u32,
    list: Vec<u16>,
}

/// Calls that run while they are drawn, so that a domain can take back what it has done.
pub(crate) struct Drawn<'a> {
    pub(crate) trial: &'a Trial,
    pub(crate) state: State,
    done: Vec<Done>,
    pub(crate) calls: Vec<Call>,
}

impl<'a> Drawn<'a> {
    pub(crate) fn new(trial: &'a Trial, from: &State) -> Self {
        Drawn {
            trial,
            state: from.clone(),
            done: Vec::new(),
            calls: Vec::new(),
        }
    }

    pub(crate) fn add(&mut self, call: Call) {
        let active = self.state.board.active;
        let told = (self.trial.step)(&mut self.state, &call);
        if let (&Call::Recolour { domain, .. }, Reply::Answer(Answer::Moved(count))) =
            (&call, told.reply)
        {
            self.done.push(Done {
                domain,
                former: active[domain as usize],
                list: told.list[..3 * count].to_vec(),
            });
        }
        self.calls.push(call);
    }

    /// Any call of a domain.
    pub(crate) fn add_of(&mut self, random: &mut Random, domain: u32) {
        let call = self.call_of(random, domain);
        self.add(call);
    }

    fn call_of(&self, random: &mut Random, domain: u32) -> Call {
        match random.below(8) {
            0 => self.take_back(random, domain),
            _ => self.trial.call_of(random, domain),
        }
    }

    /// A taking back of the domain's last recolouring as a rule, at times of one before it, with another set, with a
    /// list that is not right, or of moves that were none.
    fn take_back(&self, random: &mut Random, domain: u32) -> Call {
        let own: Vec<&Done> = self
            .done
            .iter()
            .filter(|done| done.domain == domain)
            .collect();
        let Some(last) = own.last().filter(|_| random.below(6) > 0) else {
            return any_take_back(random, &self.state, domain);
        };
        let way = random.below(8);
        let Done { former, list, .. } = match way {
            0 => random.pick(&own),
            _ => last,
        };
        let (mut set, mut list) = (*former, list.clone());
        match way {
            1 => set = any_set(random, self.trial.start.board.grants[domain as usize]),
            2 | 3 => spoil(random, &self.state, domain, set, &mut list),
            4 => list = shuffled(random, &list),
            _ => {}
        }
        Call::TakeBack { domain, set, list }
    }
}

#[cfg(test)]
mod tests {
    use super::*;
    use crate::readings::choices::{
        self, all_words, in_turn, lowest_first, most_free, most_held, Reading,
    };
    use crate::readings::quotas::{
        below_held, faults_by, first_told, next_too, of_all_domains, only_above, quotas_by,
    };
    use crate::readings::taking_back::{self, Wrong};

    #[test]
    fn the_rule_holds_of_the_model() {
        let tally = check(crate::SEED, 400);
        assert!(tally.good(), "{tally:?}");
    }

    /// A loader that takes the lowest free frame of any colour.
    fn ignores_colours(state: &mut State, call: &Call) -> Answered {
        let lowest = state.table.iter().position(|held| *held == FREE);
        let mut answered = step(state, call);
        if let (Reply::Answer(Answer::New(frame)), Some(lowest)) = (&mut answered.reply, lowest) {
            state.table.swap(*frame, lowest);
            *frame = lowest;
        }
        answered
    }

    /// A loader that chooses frames by a pointer common to all domains.
    fn common_pointer(state: &mut State, call: &Call) -> Answered {
        let pointer = state.table.iter().filter(|held| **held != FREE).count();
        let mut answered = step(state, call);
        if let Reply::Answer(Answer::New(frame)) = &mut answered.reply {
            let active = state.board.active[call.domain() as usize];
            let fits = |f: &usize| active >> (f % state.board.colours as usize) & 1 == 1;
            let chosen = (pointer..state.table.len())
                .find(|f| state.table[*f] == FREE && fits(f))
                .unwrap_or(*frame);
            state.table.swap(*frame, chosen);
            *frame = chosen;
        }
        answered
    }

    /// A loader that refuses everything once two domains hold frames.
    fn refuses_beside_others(state: &mut State, call: &Call) -> Answered {
        let held = |word: &&u16| **word != FREE && **word != RESERVED;
        let mut holders = state
            .table
            .iter()
            .filter(held)
            .map(|word| (word - 1) / 4096);
        let first = holders.next();
        if holders.any(|holder| Some(holder) != first) {
            return Answered {
                reply: Reply::refused(12),
                list: vec![7; call.room()],
            };
        }
        step(state, call)
    }

    /// A loader that tells each domain how many frames are free, as the row of refusal 12.
    fn tells_free_frames(state: &mut State, call: &Call) -> Answered {
        let mut answered = step(state, call);
        if let Reply::Refused { number: 12, row } = &mut answered.reply {
            *row = state.table.iter().filter(|word| **word == FREE).count() as u32;
        }
        answered
    }

    /// A loader that counts the frames of all domains outside the new set, page by page, and puts each triple
    /// where these counts say, as far as the list goes.
    fn places_by_all_domains(state: &mut State, call: &Call) -> Answered {
        let before = state.table.clone();
        let mut told = step(state, call);
        if let (Reply::Answer(Answer::Moved(count)), &Call::Recolour { set, .. }) =
            (told.reply, call)
        {
            let outside = |frame: usize| set >> (frame as u32 % state.board.colours) & 1 == 0;
            let held = (0..before.len())
                .filter(|frame| outside(*frame) && ![FREE, RESERVED].contains(&before[*frame]));
            let pages: Vec<(u16, u16)> = held
                .map(|frame| ((before[frame] - 1) % 4096, frame as u16))
                .collect();
            let right = std::mem::replace(&mut told.list, vec![7; call.room()]);
            for triple in right.chunks_exact(3).take(count) {
                let lower = |at: &&(u16, u16)| **at < (triple[0], triple[1]);
                let place = 3 * pages.iter().filter(lower).count();
                if let Some(there) = told.list.get_mut(place..place + 3) {
                    there.copy_from_slice(triple);
                }
            }
        }
        told
    }

    /// A loader that leaves in the rest of the move list how many frames of the table are free.
    fn counts_in_the_rest(state: &mut State, call: &Call) -> Answered {
        let free = state.table.iter().filter(|word| **word == FREE).count() as u16;
        let mut answered = step(state, call);
        if let Reply::Answer(Answer::Moved(count)) = answered.reply {
            if let Some(word) = answered.list.get_mut(3 * count) {
                *word = free;
            }
        }
        answered
    }

    #[test]
    fn colours_are_evenly_used_in_the_model() {
        let evenness = check_even(crate::SEED, 400);
        assert!(evenness.good(), "{evenness:?}");
    }

    /// Lowest first, and counts of what the domain does not hold, leave its colours uneven.
    #[test]
    fn uneven_loaders_are_found() {
        for reading in [lowest_first, most_held, most_free, all_words] as [Reading; 4] {
            let step = |state: &mut State, call: &Call| {
                answered(call, |list| choices::call(state, call, list, reading))
            };
            let evenness = check_even_step(crate::SEED, 400, step);
            assert!(evenness.violations > 20, "{evenness:?}");
        }
        for wrong in [ignores_colours as Step, common_pointer] {
            let evenness = check_even_step(crate::SEED, 400, wrong);
            assert!(evenness.violations > 20, "{evenness:?}");
        }
    }

    /// A loader that takes colours in which as many frames are held in turn, the turn being common to all
    /// domains.
    fn common_turn(state: &mut State, call: &Call) -> Answered {
        answered(call, |list| choices::call(state, call, list, in_turn))
    }

    /// A loader whose quota call changes the next domain's field as well.
    fn changes_the_next_quota(state: &mut State, call: &Call) -> Answered {
        answered(call, |list| next_too(state, call, list))
    }

    /// A loader that lets a fault through at the quota.
    fn one_above_the_quota(state: &mut State, call: &Call) -> Answered {
        answered(call, |list| only_above(state, call, list))
    }

    /// A loader that takes a quota below the frames held.
    fn quota_below_held(state: &mut State, call: &Call) -> Answered {
        answered(call, |list| below_held(state, call, list))
    }

    /// A loader whose colours call tells the quota of domain 0.
    fn tells_the_first_quota(state: &mut State, call: &Call) -> Answered {
        answered(call, |list| first_told(state, call, list))
    }

    /// Loaders that hold the frames of all domains against the quota of each.
    fn faults_by_all_domains(state: &mut State, call: &Call) -> Answered {
        answered(call, |list| faults_by(state, call, list, of_all_domains))
    }

    fn quotas_by_all_domains(state: &mut State, call: &Call) -> Answered {
        answered(call, |list| quotas_by(state, call, list, of_all_domains))
    }

    /// A loader that tells each domain how many frames are free, as the row of refusals 31 and 32.
    fn tells_free_frames_of_lists(state: &mut State, call: &Call) -> Answered {
        let mut answered = step(state, call);
        if let Reply::Refused {
            number: 31 | 32,
            row,
        } = &mut answered.reply
        {
            *row = state.table.iter().filter(|word| **word == FREE).count() as u32;
        }
        answered
    }

    /// A loader that takes nothing back where another domain holds a frame of a lower number than any that goes back.
    fn takes_back_undisturbed(state: &mut State, call: &Call) -> Answered {
        if let Call::TakeBack { domain, list, .. } = call {
            let lowest = list.chunks_exact(3).map(|triple| triple[1]).min();
            let below = &state.table[..usize::from(lowest.unwrap_or(0)).min(state.table.len())];
            let held = |word: &u16| ![FREE, RESERVED].contains(word);
            let own = |word: &u16| page_held(*domain, *word).is_some();
            if below.iter().any(|word| held(word) && !own(word)) {
                return Answered {
                    reply: Reply::refused(31),
                    list: Vec::new(),
                };
            }
        }
        step(state, call)
    }

    /// Loaders that read document 02, No. 10, otherwise.
    fn reads<const PLACE: usize>(state: &mut State, call: &Call) -> Answered {
        let wrong = READINGS[PLACE];
        answered(call, |list| taking_back::call(state, call, list, wrong))
    }

    const READINGS: [Wrong; 11] = [
        Wrong::StraysBefore,
        Wrong::StraysOfAll,
        Wrong::WordsCounted,
        Wrong::SetKept,
        Wrong::NotMoved,
        Wrong::NewKept,
        Wrong::NextDomainsSet,
        // it takes lists of several triples, or words of others, to see these
        Wrong::AnyPage,
        Wrong::NewOfAnybody,
        Wrong::OldReserved,
        Wrong::OrderDemanded,
    ];

    #[test]
    fn wrong_takings_back_are_found() {
        let often: [Step; 9] = [
            reads::<0>,
            reads::<1>,
            reads::<2>,
            reads::<3>,
            reads::<4>,
            reads::<5>,
            reads::<6>,
            tells_free_frames_of_lists,
            takes_back_undisturbed,
        ];
        let seldom: [Step; 4] = [reads::<7>, reads::<8>, reads::<9>, reads::<10>];
        let loaders = often.into_iter().map(|wrong| (wrong, 400));
        for (wrong, pairs) in loaders.chain(seldom.map(|wrong| (wrong, 4000))) {
            let tally = check_step(crate::SEED, pairs, wrong);
            assert!(tally.violations > 20, "{tally:?}");
        }
    }

    #[test]
    fn wrong_loaders_are_found() {
        for wrong in [
            ignores_colours as Step,
            common_pointer,
            common_turn,
            refuses_beside_others,
            tells_free_frames,
            places_by_all_domains,
            counts_in_the_rest,
            changes_the_next_quota,
            one_above_the_quota,
            quota_below_held,
            tells_the_first_quota,
            faults_by_all_domains,
            quotas_by_all_domains,
        ] {
            let tally = check_step(crate::SEED, 400, wrong);
            assert!(tally.violations > 20, "{tally:?}");
        }
    }
}
