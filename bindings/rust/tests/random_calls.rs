//! Thousands of random calls through the binding, each held against plain properties: refusals change
//! nothing, faults and looks agree, no guest gets another's colours or holds more than its quota, moves account
//! for the table and stand in page order, and taken back they leave what was there before.

use std::collections::BTreeSet;

use juzvanec::*;

/// Numbers from a seed (xorshift).
struct Random(u64);

impl Random {
    fn below(&mut self, n: u64) -> u64 {
        self.0 ^= self.0 << 13;
        self.0 ^= self.0 >> 7;
        self.0 ^= self.0 << 17;
        (self.0 >> 11) % n
    }

    /// Mostly below n, at times any number.
    fn mostly(&mut self, n: u64) -> u32 {
        match self.below(12) {
            0 => self.below(1 << 32) as u32,
            _ => self.below(n) as u32,
        }
    }
}

/// What a recolouring is taken back by, and what must be there then.
struct Former {
    set: u32,
    triples: Vec<u16>,
    frames: Vec<usize>,
    words: Vec<u16>,
    /// Whether others alone have called since.
    untouched: bool,
}

struct Machine {
    board: Board,
    table: Vec<u16>,
    /// For each guest, its last recolouring.
    former: [Option<Former>; 3],
    /// How often one that had moved frames was taken back with only others' calls between.
    restored: u32,
}

impl Machine {
    fn new(random: &mut Random) -> Self {
        let frames = 1 + random.below(60) as u32;
        let board = Board::new(8, frames, &[0x13, 0x64, 0x80]);
        let empty = |_| [FREE, FREE, FREE, RESERVED][random.below(4) as usize];
        let table = (0..frames).map(empty).collect();
        Machine {
            board,
            table,
            former: [const { None }; 3],
            restored: 0,
        }
    }

    /// The domain calls: since its recolouring it is no longer others alone.
    fn touch(&mut self, domain: u32) {
        if let Some(Some(former)) = self.former.get_mut(domain as usize) {
            former.untouched = false;
        }
    }

    /// The frames that the domain holds, and their words.
    fn own(&self, domain: u32) -> (Vec<usize>, Vec<u16>) {
        let words = self.table.iter().copied().enumerate();
        let own = |word: u16| word != FREE && u32::from((word - 1) / 4096) == domain;
        words.filter(|(_, word)| own(*word)).unzip()
    }

    /// Every frame that a guest holds has a colour of its grant.
    fn apart(&self) -> bool {
        self.table.iter().enumerate().all(|(frame, word)| {
            *word == FREE || *word == RESERVED || {
                let domain = usize::from((word - 1) / 4096);
                self.board.grants[domain] >> (frame % 8) & 1 == 1
            }
        })
    }

    fn held(&self, domain: u32) -> usize {
        self.own(domain).0.len()
    }

    /// Whether the domain, if it is one, holds as many frames as it may.
    fn at_quota(&self, domain: u32) -> bool {
        let quota = self.board.quotas.get(domain as usize);
        quota.is_some_and(|quota| self.held(domain) == *quota as usize)
    }

    fn fault(&mut self, domain: u32, page: u32) {
        let before = self.table.clone();
        let seen = look(&self.board, &self.table, domain, page);
        let at_quota = self.at_quota(domain);
        match fault(&self.board, &mut self.table, domain, page) {
            Err(Refusal { number, .. }) => {
                assert!([8, 10, 12, 28].contains(&number));
                // an unmapped page at the quota is 28, and nothing else is
                assert_eq!(number == 28, at_quota && seen == Ok(Looked::Unmapped));
                assert_eq!(self.table, before);
            }
            Ok(Faulted::Old(frame)) => {
                assert_eq!(seen, Ok(Looked::Mapped(frame)));
                assert_eq!(self.table, before);
            }
            Ok(Faulted::New(frame)) => {
                assert!(!at_quota);
                assert_eq!(seen, Ok(Looked::Unmapped));
                assert_eq!(before[frame], FREE);
                let mut expected = before;
                expected[frame] = page_word(domain, page).unwrap();
                assert_eq!(self.table, expected);
                let now = look(&self.board, &self.table, domain, page);
                assert_eq!(now, Ok(Looked::Mapped(frame)));
            }
        }
    }

    fn release(&mut self, domain: u32, page: u32) {
        let before = self.table.clone();
        match release(&self.board, &mut self.table, domain, page) {
            Err(Refusal { number, .. }) => {
                assert!([8, 10, 14].contains(&number));
                assert_eq!(self.table, before);
            }
            Ok(frame) => {
                assert_eq!(Some(before[frame]), page_word(domain, page));
                assert_eq!(self.table[frame], FREE);
                let again = look(&self.board, &self.table, domain, page);
                assert_eq!(again, Ok(Looked::Unmapped));
            }
        }
    }

    fn set_quota(&mut self, domain: u32, quota: u32) {
        let before = self.board;
        let right = (1..=MOST_QUOTA).contains(&quota) && self.held(domain) <= quota as usize;
        match set_quota(&mut self.board, &self.table, domain, quota) {
            Err(Refusal { number, .. }) => {
                assert!(number == 8 || number == 27 && !right);
                assert_eq!(self.board, before);
            }
            Ok(answer) => {
                assert!(right);
                assert_eq!(answer, quota);
                let mut expected = before;
                expected.quotas[domain as usize] = quota;
                assert_eq!(self.board, expected);
                let told = colours(&self.board, &self.table, domain);
                let set = before.active[domain as usize];
                assert_eq!(told, Ok(Colours { set, quota }));
            }
        }
    }

    fn recolour(&mut self, domain: u32, set: u32, room: usize) {
        let before = (self.board, self.table.clone());
        let (frames, words) = self.own(domain);
        let mut moves = vec![9; room];
        match recolour(&mut self.board, &mut self.table, domain, set, &mut moves) {
            Err(Refusal { number, .. }) => {
                assert!([8, 9, 12, 13].contains(&number));
                assert_eq!((self.board, &self.table), (before.0, &before.1));
                assert_eq!(moves, vec![9; room]);
            }
            Ok(count) => {
                let (triples, rest) = moves.split_at(MOVE_WORDS * count);
                assert!(rest.iter().all(|word| *word == 9));
                self.moved(domain, set, before.1, triples);
                self.former[domain as usize] = Some(Former {
                    set: before.0.active[domain as usize],
                    triples: triples.to_vec(),
                    frames,
                    words,
                    untouched: true,
                });
            }
        }
    }

    /// Takes the domain's last recolouring back, if there was one: with the triples as they stand, the other way
    /// round, without the last, or with one word changed; and to the former set, or any of its grant. Answers the
    /// number of the refusal, or 0.
    fn take_back(&mut self, domain: u32, random: &mut Random) -> u32 {
        let slot = self.former.get_mut(domain as usize);
        let former = slot.and_then(Option::take);
        let active = self.board.active.get(domain as usize);
        let (mut set, mut triples) = match &former {
            Some(former) => (former.set, former.triples.clone()),
            None => (*active.unwrap_or(&1), Vec::new()),
        };
        let mut as_moved = true;
        match random.below(8) {
            0 => {
                set = random.mostly(256) & self.board.grants.get(domain as usize).unwrap_or(&1);
                as_moved = false;
            }
            1 => {
                triples.truncate(triples.len().saturating_sub(MOVE_WORDS));
                as_moved = false;
            }
            2 if !triples.is_empty() => {
                let at = random.below(triples.len() as u64) as usize;
                triples[at] = random.mostly(60) as u16;
                as_moved = false;
            }
            3 | 4 => {
                triples = triples
                    .chunks(MOVE_WORDS)
                    .rev()
                    .flatten()
                    .copied()
                    .collect();
            }
            _ => {}
        }
        let before = (self.board, self.table.clone());
        let list = triples.clone();
        let reply = take_back(&mut self.board, &mut self.table, domain, set, &triples);
        assert_eq!(triples, list);
        match reply {
            Err(Refusal { number, .. }) => {
                assert!([8, 9, 31, 32].contains(&number));
                assert_eq!((self.board, &self.table), (before.0, &before.1));
                let right = former.is_some_and(|former| as_moved && former.untouched);
                assert!(!right, "refused {number}, though only others have called");
                number
            }
            Ok(count) => {
                assert_eq!(MOVE_WORDS * count, triples.len());
                self.moved_back(domain, set, before, &triples);
                if let Some(former) = former.filter(|former| as_moved && former.untouched) {
                    assert_eq!(self.own(domain), (former.frames, former.words));
                    self.restored += u32::from(count > 0);
                }
                0
            }
        }
    }

    /// The triples lead back from the state before to the one now, and no frame lies outside the set.
    fn moved_back(&self, domain: u32, set: u32, before: (Board, Vec<u16>), triples: &[u16]) {
        let (mut board, mut table) = before;
        let mut touched = BTreeSet::new();
        for triple in triples.chunks_exact(MOVE_WORDS) {
            let [page, old, new] = [triple[0], triple[1], triple[2]].map(usize::from);
            assert!(touched.insert(old) && touched.insert(new));
            assert_eq!(Some(table[new]), page_word(domain, page as u32));
            assert_eq!(table[old], FREE);
            table.swap(old, new);
        }
        board.active[domain as usize] = set;
        assert_eq!((board, table), (self.board, self.table.clone()));
        let (frames, _) = self.own(domain);
        assert!(frames.iter().all(|frame| set >> (frame % 8) & 1 == 1));
    }

    /// The triples lead from the table before to the table now, and stand by page, equal pages by old frame.
    fn moved(&self, domain: u32, set: u32, mut table: Vec<u16>, triples: &[u16]) {
        let mut touched = BTreeSet::new();
        let by_page = |triple: &[u16]| (triple[0], triple[1]);
        assert!(triples.chunks_exact(MOVE_WORDS).is_sorted_by_key(by_page));
        for triple in triples.chunks_exact(MOVE_WORDS) {
            let [page, old, new] = [triple[0], triple[1], triple[2]].map(usize::from);
            assert!(touched.insert(old) && touched.insert(new));
            assert_eq!(Some(table[old]), page_word(domain, page as u32));
            assert_eq!(table[new], FREE);
            assert!(set >> (old % 8) & 1 == 0 && set >> (new % 8) & 1 == 1);
            table.swap(old, new);
        }
        assert_eq!(table, self.table);
        let told = colours(&self.board, &self.table, domain);
        assert_eq!(told.map(|told| told.set), Ok(set));
    }
}

#[test]
fn frames() {
    let mut random = Random(2003);
    let (mut most, mut at_quota) = (0, 0);
    let (mut taken_back, mut restored) = ([0; 33], 0);
    for _ in 0..300 {
        let mut machine = Machine::new(&mut random);
        for _ in 0..100 {
            let domain = random.mostly(3);
            let page = random.mostly(12);
            let others: Vec<usize> = (0..3).map(|other| machine.held(other)).collect();
            let call = random.below(14);
            if call < 11 {
                machine.touch(domain);
            }
            match call {
                0 | 1 => machine.release(domain, page),
                2 => {
                    let near = machine.held(domain) as u32 + random.below(4) as u32;
                    let quota = [near, near, random.mostly(60), FIRST_QUOTA];
                    machine.set_quota(domain, quota[random.below(4) as usize].wrapping_sub(1));
                }
                3 | 4 => {
                    let grant = machine.board.grants.get(domain as usize).unwrap_or(&1);
                    let set = random.mostly(256) & (grant | random.below(2) as u32);
                    machine.recolour(domain, set, random.below(40) as usize);
                }
                5..11 => machine.fault(domain, page),
                _ => {
                    let number = machine.take_back(domain, &mut random);
                    taken_back[number as usize] += 1;
                }
            }
            assert!(machine.apart());
            for other in (0..3).filter(|other| *other != domain) {
                assert_eq!(machine.held(other), others[other as usize]);
            }
            for domain in 0..3 {
                assert!(machine.held(domain) <= machine.board.quotas[domain as usize] as usize);
                at_quota += u32::from(machine.at_quota(domain));
            }
            most = most.max(machine.held(0));
        }
        restored += machine.restored;
    }
    assert!(most >= 8, "tables fill up");
    assert!(at_quota > 1000, "{at_quota} times at a quota");
    assert!(restored > 50, "frames went back {restored} times");
    assert!([31, 32].iter().all(|number| taken_back[*number] > 50));
}

/// A laid-out page bleaches back, and its colour is in the set.
#[test]
fn pages() {
    let mut random = Random(2004);
    let mut answered = 0;
    for _ in 0..20_000 {
        let n = 1 << random.below(6);
        let set = random.mostly(1 << n);
        let index = random.mostly(1 << 24);
        if let Ok(page) = layout(n, set, index) {
            answered += 1;
            assert_eq!(set >> (page % n) & 1, 1);
            assert_eq!(bleach(n, set, page), Ok(index));
        }
    }
    assert!(answered > 5000);
}

/// The times and the rounds of a plan stay in their limits, and a longer list of tasks leaves the earlier
/// ones alone.
#[test]
fn plans() {
    let mut random = Random(2005);
    let (mut admitted, mut longest) = (0, 0);
    let board = Board::new(16, 64, &[0xFFFF]);
    for _ in 0..3000 {
        let period = 1 + random.below(2000) as u32;
        let vcpus = [0, 0, period, 1 + random.below(period.into()) as u32];
        let mut tasks: Vec<u32> = Vec::new();
        let (mut before, mut rounds_before) = (Vec::new(), Vec::new());
        for _ in 0..1 + random.below(5) {
            let span = 1 + random.below(30_000) as u32;
            let periods = tasks.chunks_exact(TASK_WORDS).map(|row| row[1]);
            let most = 2 + periods.map(|period| span.div_ceil(period) - 1).sum::<u32>();
            tasks.extend([0, span, span, 1 + random.below(65_535) as u32]);
            tasks.extend([1 + random.below(u64::from(span) / 9 + 1) as u32; 16]);
            let (mut times, mut rounds) = ([7; 8], [7; 9]);
            let Ok(()) = admit_plan(&board, 10, &vcpus, &tasks, &mut times, &mut rounds) else {
                assert_eq!((times, rounds), ([7; 8], [7; 9]));
                break;
            };
            admitted += 1;
            let rows = 1 + tasks.len() / TASK_WORDS;
            assert!(times[..rows - 1].starts_with(&before));
            assert!(times[rows..].iter().all(|word| *word == 7));
            assert!((1..=span).contains(&times[rows - 1]));
            assert!(rounds[..rows - 1].starts_with(&rounds_before));
            assert!(rounds[rows..].iter().all(|word| *word == 7));
            assert!((1..=most).contains(&rounds[rows - 1]));
            // a search that ends where it starts
            assert_eq!(rounds[rows - 1] == 1, times[rows - 1] == 1);
            longest = longest.max(rounds[rows - 1]);
            before = times[..rows].to_vec();
            rounds_before = rounds[..rows].to_vec();
        }
    }
    assert!(admitted > 1500);
    assert!(longest > 5, "{longest} rounds at most");
}
