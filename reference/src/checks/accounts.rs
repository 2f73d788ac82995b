//! The accounts of document 02, No. 14, on random histories from an accepted board and an empty table: "a domain holds
//! as many frames as its faults answered new, less its accepted releases; none of its pages has two frames; reserved
//! words never change; and where a frame that the domain just released is the only free one in its active colours, a
//! fault of an unmapped page as its next call gets it." Each domain is looked at after each call, and its frames are
//! counted a second time from its log alone, which has what its calls were answered and not what they were.

use crate::checks::histories::{once, step, Drawn, Trial};
use crate::model::cache::colours;
use crate::model::frames::{frames_held, has, page_held, Answer, Call, State, FREE, PAGES, QUOTA};
use crate::model::reply::Reply;
use crate::random::boards::{any_domain, part_of};
use crate::random::lists::any_take_back;
use crate::random::Random;

/// What a call adds to a count of frames, with its reply; and what a log comes to, which has only replies.
type OfCall = fn(&Call, Reply<Answer>) -> i64;
type OfLog = fn(&[Reply<Answer>]) -> i64;

/// How frames are counted: as in the document, or in a test otherwise.
#[derive(Clone, Copy)]
struct Counting {
    of_call: OfCall,
    of_log: OfLog,
}

const COUNTING: Counting = Counting { of_call, of_log };

/// "its faults answered new, less its accepted releases".
fn of_call(call: &Call, reply: Reply<Answer>) -> i64 {
    match (call, reply) {
        (Call::Fault { .. }, Reply::Answer(Answer::New(_))) => 1,
        (Call::Release { .. }, Reply::Answer(_)) => -1,
        _ => 0,
    }
}

/// The same, where there is only what the domain's calls were answered: nothing but a fault is answered new, and
/// nothing but a release that a frame is freed.
fn of_log(log: &[Reply<Answer>]) -> i64 {
    let adds = |reply: &Reply<Answer>| match reply {
        Reply::Answer(Answer::New(_)) => 1,
        Reply::Answer(Answer::Freed(_)) => -1,
        _ => 0,
    };
    log.iter().map(adds).sum()
}

/// What has to hold: the count by the calls and the count by the log, one frame for a page, reserved words as at the
/// start, and the frame that the next fault gets.
#[derive(Clone, Copy, Debug, PartialEq, Eq)]
enum Fact {
    Calls,
    Log,
    Pages,
    Reserved,
    NextFault,
}

const FACTS: usize = 5;

#[derive(Clone, Copy, Debug, Default)]
pub struct Tally {
    pub histories: u32,
    /// Looks at what a domain holds, at the start and after each call.
    pub looks: u32,
    /// Those after an accepted release of the domain; after a refused one; after a fault answered old; after a
    /// recolouring of the domain that moved frames; after a taking back that did.
    pub released: u32,
    pub turned_away: u32,
    pub old: u32,
    pub moved: u32,
    pub moved_back: u32,
    /// Releases of a frame that then is the only free one in the active colours, with a fault as the domain's next
    /// call; those with a table or board that others changed between; with another page than the one released; with
    /// the domain at its quota before the release.
    pub only_free: u32,
    pub beside_others: u32,
    pub other_page: u32,
    pub at_quota: u32,
    /// Histories that break each fact, and the number of the last of them, so that none counts twice.
    broken: [u32; FACTS],
    last: [u32; FACTS],
}

impl Tally {
    /// No violation, and enough of each kind that this says something.
    pub fn good(&self) -> bool {
        let tenth = self.looks / 10;
        let enough = self.looks > 20 * self.histories
            && self.released > tenth
            && self.turned_away > tenth
            && self.old > tenth
            && self.moved > self.looks / 50
            && self.moved_back > self.looks / 50
            && self.only_free > self.histories / 2
            && self.beside_others > self.only_free / 10
            && self.other_page > self.only_free / 10
            && self.at_quota > self.only_free / 10;
        enough && self.violations() == 0
    }

    /// A history counts once for each fact that it breaks.
    pub fn violations(&self) -> u32 {
        self.broken.iter().sum()
    }

    pub fn report(&self) {
        println!(
            "{} histories with {} looks at the frames of a domain, {} after a release, {} after a refused one, {} \
             after an old answer, {} after moves, {} after moves back, {} violations",
            self.histories,
            self.looks,
            self.released,
            self.turned_away,
            self.old,
            self.moved,
            self.moved_back,
            self.violations()
        );
        println!(
            "the only free frame released and had by the next fault {} times, {} after changes by others, {} for \
             another page, {} at the quota before",
            self.only_free, self.beside_others, self.other_page, self.at_quota
        );
    }

    fn look(&mut self, account: &Account) {
        self.looks += 1;
        self.released += u32::from(account.released);
        self.turned_away += u32::from(account.turned_away);
        self.old += u32::from(account.old);
        self.moved += u32::from(account.moved);
        self.moved_back += u32::from(account.moved_back);
    }

    /// Counts the history where the fact does not hold, and prints the first.
    fn judge(&mut self, fact: Fact, holds: bool, running: &Running) {
        let here = fact as usize;
        if holds || self.last[here] == self.histories {
            return;
        }
        if self.violations() == 0 {
            let (start, calls) = (&running.trial.start, &running.calls);
            println!("{fact:?} does not hold: {start:?} {calls:?}");
        }
        self.broken[here] += 1;
        self.last[here] = self.histories;
    }
}

/// Checks random histories.
pub fn check(seed: u64, histories: u32) -> Tally {
    let trial = |random: &mut Random| Trial::new(random, step);
    check_trials(seed, histories, COUNTING, trial)
}

fn check_trials(
    seed: u64,
    histories: u32,
    counting: Counting,
    trial: impl Fn(&mut Random) -> Trial,
) -> Tally {
    let mut random = Random::new(seed);
    let mut tally = Tally::default();
    for _ in 0..histories {
        let trial = trial(&mut random);
        let calls = history(&mut random, &trial);
        tally.histories += 1;
        let mut running = Running::new(&trial, counting);
        running.look(&mut tally);
        for call in &calls {
            let reply = running.call(&mut tally, call);
            running.fault_next(&mut random, &mut tally, call, reply);
        }
    }
    tally
}

/// What a domain's own calls were answered so far.
#[derive(Clone, Default)]
struct Account {
    /// What the calls come to, one by one with their replies.
    count: i64,
    log: Vec<Reply<Answer>>,
    released: bool,
    turned_away: bool,
    old: bool,
    moved: bool,
    moved_back: bool,
}

impl Account {
    fn enter(&mut self, counting: Counting, call: &Call, reply: Reply<Answer>) {
        self.count += (counting.of_call)(call, reply);
        self.log.push(reply);
        match (call, reply) {
            (Call::Release { .. }, Reply::Answer(_)) => self.released = true,
            (Call::Release { .. }, _) => self.turned_away = true,
            (_, Reply::Answer(Answer::Old(_))) => self.old = true,
            (Call::Recolour { .. }, Reply::Answer(Answer::Moved(1..))) => self.moved = true,
            (Call::TakeBack { .. }, Reply::Answer(Answer::Moved(1..))) => self.moved_back = true,
            _ => {}
        }
    }
}

/// A history that runs, and the account of each domain below the count.
#[derive(Clone)]
struct Running<'a> {
    trial: &'a Trial,
    counting: Counting,
    state: State,
    calls: Vec<Call>,
    accounts: Vec<Account>,
}

impl<'a> Running<'a> {
    fn new(trial: &'a Trial, counting: Counting) -> Self {
        Running {
            trial,
            counting,
            state: trial.start.clone(),
            calls: Vec::new(),
            accounts: vec![Account::default(); trial.start.board.domains as usize],
        }
    }

    /// Runs a call, enters it and looks at each domain.
    fn call(&mut self, tally: &mut Tally, call: &Call) -> Reply<Answer> {
        let reply = (self.trial.step)(&mut self.state, call).reply;
        if let Some(account) = self.accounts.get_mut(call.domain() as usize) {
            account.enter(self.counting, call, reply);
        }
        self.calls.push(call.clone());
        self.look(tally);
        reply
    }

    fn look(&self, tally: &mut Tally) {
        let table = &self.state.table;
        for (domain, account) in (0..).zip(&self.accounts) {
            tally.look(account);
            let held = frames_held(table, domain) as i64;
            let by_log = (self.counting.of_log)(&account.log);
            let pages = table.iter().filter_map(|held| page_held(domain, *held));
            tally.judge(Fact::Calls, held == account.count, self);
            tally.judge(Fact::Log, held == by_log, self);
            tally.judge(Fact::Pages, once(pages), self);
        }
        tally.judge(Fact::Reserved, self.trial.reserved_kept(&self.state), self);
    }

    /// Where the call has released what is now the only free frame in the domain's active colours: calls of others,
    /// and then the domain's fault, which gets this frame. The history itself goes on without them.
    fn fault_next(
        &self,
        random: &mut Random,
        tally: &mut Tally,
        call: &Call,
        reply: Reply<Answer>,
    ) {
        let (domain, released, frame) = match (call, reply) {
            (&Call::Release { domain, page }, Reply::Answer(Answer::Freed(frame))) => {
                (domain, page, frame)
            }
            _ => return,
        };
        if free_inside(&self.state, domain) != [frame] {
            return;
        }
        let mut later = self.clone();
        later.others_call(random, tally, domain);
        let page = later.unmapped(random, domain, released);
        let held = frames_held(&self.state.table, domain) as u32;
        tally.only_free += 1;
        tally.beside_others += u32::from(later.state != self.state);
        tally.other_page += u32::from(page != released);
        tally.at_quota += u32::from(held + 1 == self.state.board.quotas[domain as usize]);
        let reply = later.call(tally, &Call::Fault { domain, page });
        let has_page = page_held(domain, later.state.table[frame]) == Some(page as u16);
        let gets_it = reply == Reply::Answer(Answer::New(frame)) && has_page;
        tally.judge(Fact::NextFault, gets_it, &later);
    }

    /// Some calls that name other numbers.
    fn others_call(&mut self, random: &mut Random, tally: &mut Tally, domain: u32) {
        let mut drawn = Drawn::new(self.trial, &self.state);
        for _ in 0..random.below(10) {
            let other = self.trial.other_domain(random, domain);
            drawn.add_of(random, other);
        }
        for call in &drawn.calls {
            self.call(tally, call);
        }
    }

    /// A page that is not mapped: the one released, one that calls name again and again, or any.
    fn unmapped(&self, random: &mut Random, domain: u32, released: u32) -> u32 {
        let pages = pages_held(&self.state.table, domain);
        loop {
            let other = some_page(random, self.trial);
            let page = random.pick(&[released, other, other]);
            if !pages.contains(&page) {
                return page;
            }
        }
    }
}

/// A page that calls name again and again, or any.
fn some_page(random: &mut Random, trial: &Trial) -> u32 {
    let any = random.below(PAGES.into()) as u32;
    let named = random.pick(&trial.pages);
    random.pick(&[any, named])
}

/// The free frames with a colour in the domain's active set.
fn free_inside(state: &State, domain: u32) -> Vec<usize> {
    let active = state.board.active[domain as usize];
    let is_active = |frame: usize| has(active, frame as u32 % state.board.colours);
    (0..state.table.len())
        .filter(|frame| state.table[*frame] == FREE && is_active(*frame))
        .collect()
}

/// The domain's pages that have a frame.
fn pages_held(table: &[u16], domain: u32) -> Vec<u32> {
    let pages = table.iter().filter_map(|held| page_held(domain, *held));
    pages.map(u32::from).collect()
}

/// Any history, at the end of which domains use up their active colours: drawn calls alone seldom leave a domain
/// without a free frame.
fn history(random: &mut Random, trial: &Trial) -> Vec<Call> {
    let mut drawn = trial.drawn(random);
    for _ in 0..random.below(4) {
        let domain = random.below(trial.start.board.domains.into()) as u32;
        use_up(random, &mut drawn, domain);
    }
    drawn.calls
}

/// The domain takes all free frames of its active colours, of other colours than before at times; then it releases one
/// and takes it again, and so on perhaps. At times it asks for a quota of what it holds, or of one frame less, which is
/// refused.
fn use_up(random: &mut Random, drawn: &mut Drawn, domain: u32) {
    if random.below(2) == 0 {
        let grant = drawn.state.board.grants[domain as usize];
        let sets = [part_of(random, grant), 1 << random.pick(&colours(grant))];
        let set = random.pick(&sets);
        let room = 3 * drawn.state.table.len();
        drawn.add(Call::Recolour { domain, set, room });
    }
    if random.below(3) == 0 {
        let call = any_take_back(random, &drawn.state, domain);
        drawn.add(call);
    }
    if random.below(4) > 0 {
        let quota = QUOTA;
        drawn.add(Call::SetQuota { domain, quota });
    }
    take_all(random, drawn, domain);
    for _ in 0..1 + random.below(3) {
        if random.below(3) == 0 {
            let held = frames_held(&drawn.state.table, domain) as u32;
            let quota = random.pick(&[held, held, held.saturating_sub(1)]);
            drawn.add(Call::SetQuota { domain, quota });
        }
        let pages = pages_held(&drawn.state.table, domain);
        if pages.is_empty() {
            return;
        }
        let page = random.pick(&pages);
        drawn.add(Call::Release { domain, page });
        if random.below(2) == 0 {
            let any = any_domain(random, drawn.state.board.domains);
            drawn.add_of(random, any);
        }
        take_all(random, drawn, domain);
    }
}

/// Faults until no free frame is left in the active colours, as far as the quota goes; a few may be of mapped pages.
fn take_all(random: &mut Random, drawn: &mut Drawn, domain: u32) {
    let most = free_inside(&drawn.state, domain).len() + 2;
    for _ in 0..most {
        if free_inside(&drawn.state, domain).is_empty() {
            return;
        }
        let page = some_page(random, drawn.trial);
        drawn.add(Call::Fault { domain, page });
    }
}

#[cfg(test)]
mod tests {
    use super::*;
    use crate::checks::histories::{answered, Answered, Step};
    use crate::model::frames::{word, Board, DOMAINS, RESERVED};
    use crate::readings::choices::{self, whole_grant};
    use crate::readings::quotas::{below_held, faults_by, of_all_domains, one_early};
    use crate::readings::taking_back::{self, Wrong};

    #[test]
    fn the_accounts_hold_of_the_model() {
        let tally = check(crate::SEED, 400);
        assert!(tally.good(), "{tally:?}");
        assert!(!check(crate::SEED, 0).good());
    }

    /// Domain 0 has colour 0 of the four, with the frames 0, 4 and 8, of which 4 is reserved. Its page 9 gets frame 0
    /// and is old then, page 1 gets frame 8, and for page 2 none is left. It cannot release page 3, and releases page
    /// 9: frame 0 is now the only free one of colour 0, though frame 1 of its grant is free too. Domain 1 takes frame
    /// 2, and then page 2 of domain 0 has frame 0.
    #[test]
    fn an_account_by_hand() {
        let mut table = vec![FREE; 9];
        table[4] = RESERVED;
        let trial = two_guests(0x1, table);
        let history = [
            (fault(0, 9), new(0), 1),
            (fault(0, 9), Reply::Answer(Answer::Old(0)), 1),
            (fault(0, 1), new(8), 2),
            (fault(0, 2), Reply::refused(12), 2),
            (release(0, 3), Reply::refused(14), 2),
            (release(0, 9), Reply::Answer(Answer::Freed(0)), 1),
            (fault(1, 5), new(2), 1),
            (fault(0, 2), new(0), 2),
        ];
        let table = account_of(&trial, &history);
        assert_eq!(table, [3, 0, 4102, 0, RESERVED, 0, 0, 0, 2]);
    }

    /// Document 01's example board, with its three faults and its recolouring, which moves page 1 from frame 1 to 4 and
    /// back at the end. Between, frame 0 is the only free one of colour 0 after page 9 is released, and page 2 has it.
    #[test]
    fn an_account_with_moves_by_hand() {
        let trial = two_guests(0x3, vec![FREE; 8]);
        let (domain, room, list) = (0, 3, vec![1, 1, 4]);
        let recolour = Call::Recolour {
            domain,
            set: 0x1,
            room,
        };
        let take_back = Call::TakeBack {
            domain,
            set: 0x3,
            list,
        };
        let quota = 2;
        let history = [
            (fault(0, 9), new(0), 1),
            (fault(1, 0), new(2), 1),
            (fault(0, 1), new(1), 2),
            (fault(0, 9), Reply::Answer(Answer::Old(0)), 2),
            (release(0, 7), Reply::refused(14), 2),
            (recolour, Reply::Answer(Answer::Moved(1)), 2),
            (fault(0, 2), Reply::refused(12), 2),
            (release(0, 9), Reply::Answer(Answer::Freed(0)), 1),
            (fault(1, 3), new(3), 1),
            (release(1, 0), Reply::Answer(Answer::Freed(2)), 1),
            (
                Call::SetQuota { domain: 1, quota },
                Reply::Answer(Answer::Quota(quota)),
                1,
            ),
            (fault(0, 2), new(0), 2),
            (take_back, Reply::Answer(Answer::Moved(1)), 2),
        ];
        let table = account_of(&trial, &history);
        assert_eq!(table, [3, 2, 0, 4100, 0, 0, 0, 0]);
    }

    /// Four colours, two to each of two domains: those of domain 1 are active, and this set of domain 0.
    fn two_guests(active: u32, table: Vec<u16>) -> Trial {
        let mut grants = [0; DOMAINS];
        grants[..2].copy_from_slice(&[0x3, 0xC]);
        let mut board = Board {
            colours: 4,
            frames: table.len() as u32,
            domains: 2,
            grants,
            active: grants,
            quotas: [QUOTA; DOMAINS],
        };
        board.active[0] = active;
        Trial {
            start: State { board, table },
            pages: vec![2],
            step,
        }
    }

    fn fault(domain: u32, page: u32) -> Call {
        Call::Fault { domain, page }
    }

    fn release(domain: u32, page: u32) -> Call {
        Call::Release { domain, page }
    }

    fn new(frame: usize) -> Reply<Answer> {
        Reply::Answer(Answer::New(frame))
    }

    /// The table after calls with these replies and so many frames of domain 0 after each. Domain 1 ends with one frame,
    /// and once the only free frame is released.
    fn account_of(trial: &Trial, history: &[(Call, Reply<Answer>, i64)]) -> Vec<u16> {
        let mut tally = Tally::default();
        tally.histories += 1;
        let mut running = Running::new(trial, COUNTING);
        for (call, reply, held) in history {
            assert_eq!(running.call(&mut tally, call), *reply);
            let account = &running.accounts[0];
            assert_eq!([account.count, of_log(&account.log)], [*held; 2]);
            running.fault_next(&mut Random::new(crate::SEED), &mut tally, call, *reply);
        }
        assert_eq!([tally.only_free, tally.violations()], [1, 0]);
        assert_eq!(of_log(&running.accounts[1].log), 1);
        running.state.table
    }

    const FACT: [Fact; FACTS] = [
        Fact::Calls,
        Fact::Log,
        Fact::Pages,
        Fact::Reserved,
        Fact::NextFault,
    ];

    /// These facts are broken in many histories, and the others in few or none.
    fn assert_broken(tally: &Tally, facts: &[Fact]) {
        for fact in FACT {
            let often = tally.broken[fact as usize] > 20;
            assert_eq!(often, facts.contains(&fact), "{fact:?}: {tally:?}");
        }
    }

    /// A loader that answers new for a mapped page.
    fn tells_old_as_new(state: &mut State, call: &Call) -> Answered {
        let mut told = step(state, call);
        if let Reply::Answer(Answer::Old(frame)) = told.reply {
            told.reply = Reply::Answer(Answer::New(frame));
        }
        told
    }

    /// A loader that gives the new frame to the next domain.
    fn gives_the_next(state: &mut State, call: &Call) -> Answered {
        let told = step(state, call);
        if let (&Call::Fault { domain, page }, Reply::Answer(Answer::New(frame))) =
            (call, told.reply)
        {
            state.table[frame] = word((domain + 1) % state.board.domains, page) as u16;
        }
        told
    }

    /// A loader whose release leaves the word.
    fn leaves_the_word(state: &mut State, call: &Call) -> Answered {
        let before = state.table.clone();
        let told = step(state, call);
        if let Reply::Answer(Answer::Freed(_)) = told.reply {
            state.table = before;
        }
        told
    }

    /// A loader whose release reserves the frame.
    fn reserves_the_frame(state: &mut State, call: &Call) -> Answered {
        let told = step(state, call);
        if let Reply::Answer(Answer::Freed(frame)) = told.reply {
            state.table[frame] = RESERVED;
        }
        told
    }

    /// A loader that accepts the release of an unmapped page.
    fn releases_unmapped(state: &mut State, call: &Call) -> Answered {
        let mut told = step(state, call);
        if told.reply == Reply::refused(14) {
            told.reply = Reply::Answer(Answer::Freed(0));
        }
        told
    }

    /// A loader whose recolouring leaves the words of the frames that it moves.
    fn leaves_old_words(state: &mut State, call: &Call) -> Answered {
        let before = state.table.clone();
        let told = step(state, call);
        if let (Call::Recolour { .. }, Reply::Answer(Answer::Moved(count))) = (call, told.reply) {
            for triple in told.list.chunks_exact(3).take(count) {
                let old = usize::from(triple[1]);
                state.table[old] = before[old];
            }
        }
        told
    }

    /// Gives the frame to the page of a fault that the model answered otherwise.
    fn give(state: &mut State, call: &Call, told: &mut Answered, frame: Option<usize>) {
        if let (&Call::Fault { domain, page }, Some(frame)) = (call, frame) {
            state.table[frame] = word(domain, page) as u16;
            told.reply = Reply::Answer(Answer::New(frame));
        }
    }

    /// A loader that gives a mapped page a second frame.
    fn maps_twice(state: &mut State, call: &Call) -> Answered {
        let mut told = step(state, call);
        if let Reply::Answer(Answer::Old(_)) = told.reply {
            let frame = free_inside(state, call.domain()).first().copied();
            give(state, call, &mut told, frame);
        }
        told
    }

    /// A loader that takes a reserved frame of the active colours where none is free.
    fn takes_reserved(state: &mut State, call: &Call) -> Answered {
        let mut told = step(state, call);
        if told.reply == Reply::refused(12) {
            let active = state.board.active[call.domain() as usize];
            let is_active = |frame: usize| has(active, frame as u32 % state.board.colours);
            let frame = (0..state.table.len())
                .find(|frame| state.table[*frame] == RESERVED && is_active(*frame));
            give(state, call, &mut told, frame);
        }
        told
    }

    /// A loader that takes a free frame of any colour where none of the active ones is free.
    fn borrows(state: &mut State, call: &Call) -> Answered {
        let mut told = step(state, call);
        if told.reply == Reply::refused(12) {
            let frame = state.table.iter().position(|held| *held == FREE);
            give(state, call, &mut told, frame);
        }
        told
    }

    /// A loader that gives no domain the last free frame of its active colours.
    fn keeps_the_last(state: &mut State, call: &Call) -> Answered {
        let before = state.clone();
        let mut told = step(state, call);
        let is_new = matches!(told.reply, Reply::Answer(Answer::New(_)));
        if is_new && free_inside(state, call.domain()).is_empty() {
            *state = before;
            told.reply = Reply::refused(12);
        }
        told
    }

    /// A loader that passes over the frame that was released last. It notes this frame in a field beyond the count,
    /// where there is one.
    fn passes_over_released(state: &mut State, call: &Call) -> Answered {
        let last = DOMAINS - 1;
        let before = state.clone();
        let mut told = step(state, call);
        if state.board.domains as usize > last {
            return told;
        }
        let note = |frame: usize| (1 << 20) + frame as u32;
        match told.reply {
            Reply::Answer(Answer::Freed(frame)) => state.board.active[last] = note(frame),
            Reply::Answer(Answer::New(frame)) if state.board.active[last] == note(frame) => {
                let other = free_inside(state, call.domain()).first().copied();
                *state = before;
                told.reply = Reply::refused(12);
                give(state, call, &mut told, other);
            }
            _ => {}
        }
        told
    }

    /// A loader that takes the colours of the whole grant for active.
    fn faults_by_grant(state: &mut State, call: &Call) -> Answered {
        answered(call, |list| choices::call(state, call, list, whole_grant))
    }

    /// A loader that refuses 28 one frame early.
    fn full_one_early(state: &mut State, call: &Call) -> Answered {
        answered(call, |list| one_early(state, call, list))
    }

    /// A loader that takes a quota below the frames held.
    fn quota_below_held(state: &mut State, call: &Call) -> Answered {
        answered(call, |list| below_held(state, call, list))
    }

    /// A loader that holds the frames of all domains against the quota of each.
    fn faults_by_all_domains(state: &mut State, call: &Call) -> Answered {
        answered(call, |list| faults_by(state, call, list, of_all_domains))
    }

    /// Loaders that read document 02, No. 10, otherwise.
    fn reads<const PLACE: usize>(state: &mut State, call: &Call) -> Answered {
        let wrong = READINGS[PLACE];
        answered(call, |list| taking_back::call(state, call, list, wrong))
    }

    const READINGS: [Wrong; 4] = [
        Wrong::NewKept,
        Wrong::NextDomainsSet,
        Wrong::OldHeld,
        Wrong::OldReserved,
    ];

    #[test]
    fn wrong_loaders_are_found() {
        use Fact::*;
        let loaders: [(Step, u32, &[Fact]); 19] = [
            (tells_old_as_new, 1000, &[Calls, Log]),
            (gives_the_next, 1000, &[Calls, Log, Pages, NextFault]),
            (leaves_the_word, 1000, &[Calls, Log]),
            (releases_unmapped, 1000, &[Calls, Log]),
            (leaves_old_words, 1000, &[Calls, Log, Pages]),
            (reads::<0>, 1000, &[Calls, Log, Pages]),
            // the second frame is answered new, so that the counts are right
            (maps_twice, 1000, &[Pages]),
            (reserves_the_frame, 1000, &[Reserved]),
            (takes_reserved, 1000, &[Reserved]),
            (borrows, 1000, &[NextFault]),
            (keeps_the_last, 1000, &[NextFault]),
            (passes_over_released, 1000, &[NextFault]),
            (faults_by_grant, 1000, &[NextFault]),
            (full_one_early, 1000, &[NextFault]),
            (quota_below_held, 1000, &[NextFault]),
            (faults_by_all_domains, 1000, &[NextFault]),
            (reads::<1>, 1000, &[NextFault]),
            // it takes lists with a frame that is held or reserved to see these
            (reads::<2>, 20_000, &[Calls, Log, Reserved]),
            (reads::<3>, 20_000, &[Reserved]),
        ];
        for (wrong, histories, facts) in loaders {
            let trial = |random: &mut Random| Trial::new(random, wrong);
            let tally = check_trials(crate::SEED, histories, COUNTING, trial);
            assert_broken(&tally, facts);
        }
    }

    /// The model's calls, counted otherwise.
    fn counted(counting: Counting) -> Tally {
        let trial = |random: &mut Random| Trial::new(random, step);
        check_trials(crate::SEED, 400, counting, trial)
    }

    /// The frames that the call moved.
    fn moves(reply: Reply<Answer>) -> i64 {
        match reply {
            Reply::Answer(Answer::Moved(count)) => count as i64,
            _ => 0,
        }
    }

    fn is_old(reply: Reply<Answer>) -> bool {
        matches!(reply, Reply::Answer(Answer::Old(_)))
    }

    fn is_refused(reply: Reply<Answer>) -> bool {
        matches!(reply, Reply::Refused { .. })
    }

    #[test]
    fn wrong_counts_of_calls_are_found() {
        let counts: [OfCall; 7] = [
            // refused releases, and refused faults
            |call, reply| match call {
                Call::Release { .. } => -1,
                _ => of_call(call, reply),
            },
            |call, reply| match call {
                Call::Fault { .. } if is_refused(reply) => 1,
                _ => of_call(call, reply),
            },
            // old answers as new
            |call, reply| of_call(call, reply) + i64::from(is_old(reply)),
            // the frames that recolourings move, as new or as released; those of takings back
            |call, reply| match call {
                Call::Recolour { .. } => moves(reply),
                _ => of_call(call, reply),
            },
            |call, reply| match call {
                Call::Recolour { .. } => -moves(reply),
                _ => of_call(call, reply),
            },
            |call, reply| match call {
                Call::TakeBack { .. } => -moves(reply),
                _ => of_call(call, reply),
            },
            // no releases
            |call, reply| of_call(call, reply).max(0),
        ];
        for of_call in counts {
            let tally = counted(Counting {
                of_call,
                ..COUNTING
            });
            assert_broken(&tally, &[Fact::Calls]);
        }
    }

    #[test]
    fn wrong_counts_of_logs_are_found() {
        let counts: [OfLog; 5] = [
            |log| of_log(log) - log.iter().filter(|reply| is_refused(**reply)).count() as i64,
            |log| of_log(log) + log.iter().filter(|reply| is_old(**reply)).count() as i64,
            |log| of_log(log) + log.iter().map(|reply| moves(*reply)).sum::<i64>(),
            |log| of_log(log) - log.iter().map(|reply| moves(*reply)).sum::<i64>(),
            // without the last
            |log| of_log(&log[..log.len().saturating_sub(1)]),
        ];
        for of_log in counts {
            let tally = counted(Counting { of_log, ..COUNTING });
            assert_broken(&tally, &[Fact::Log]);
        }
    }

    /// A frame that domain 0 holds from the start is in no log.
    #[test]
    fn a_table_that_is_not_empty_is_found() {
        let trial = |random: &mut Random| {
            let mut trial = Trial::new(random, step);
            if let Some(frame) = free_inside(&trial.start, 0).first() {
                trial.start.table[*frame] = word(0, trial.pages[0]) as u16;
            }
            trial
        };
        let tally = check_trials(crate::SEED, 400, COUNTING, trial);
        assert_broken(&tally, &[Fact::Calls, Fact::Log]);
    }
}
