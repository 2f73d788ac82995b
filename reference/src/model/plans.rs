//! Admission of a task plan: document 01, "Plans", with the reload of document 02, No. 3, the rounds of
//! No. 9, and refusals 2 to 7 and 15 to 22 of "Refusals in the order tested". A time is found as document 01
//! defines it: every microsecond from 1 is tried. Its rounds are counted by themselves, round by round.

use std::fmt;

use crate::model::frames::{refused_board, unfit, Board};
use crate::model::reply::Reply;

pub const CORES: u32 = 4;
/// The longest period, in microseconds, and the highest cost.
pub const LONGEST: u32 = 1_000_000;
pub const RELOAD: u32 = 10_000;
pub const VCPUS: usize = 16;
pub const TASKS: usize = 32;
pub const VCPU_WORDS: usize = 4;
pub const TASK_WORDS: usize = 20;

#[derive(Clone, Copy, Debug, PartialEq, Eq)]
pub struct Vcpu {
    pub core: u32,
    pub domain: u32,
    pub period: u32,
    pub budget: u32,
}

impl Vcpu {
    fn read(row: &[u32]) -> Self {
        Vcpu {
            core: row[0],
            domain: row[1],
            period: row[2],
            budget: row[3],
        }
    }

    fn fits(&self, board: &Board) -> bool {
        self.core < CORES
            && self.domain < board.domains
            && (1..=LONGEST).contains(&self.period)
            && (1..=self.period).contains(&self.budget)
    }
}

pub fn vcpus(words: &[u32]) -> Vec<Vcpu> {
    words.chunks_exact(VCPU_WORDS).map(Vcpu::read).collect()
}

#[derive(Clone, Copy, Debug, PartialEq, Eq)]
pub struct Task {
    pub vcpu: u32,
    pub period: u32,
    pub deadline: u32,
    pub set: u32,
    pub costs: [u32; 16],
}

impl Task {
    fn read(row: &[u32]) -> Self {
        let mut costs = [0; 16];
        costs.copy_from_slice(&row[4..TASK_WORDS]);
        Task {
            vcpu: row[0],
            period: row[1],
            deadline: row[2],
            set: row[3],
            costs,
        }
    }

    /// The cost for as many colours as the set has.
    pub fn cost(&self) -> u32 {
        self.costs[self.set.count_ones() as usize - 1]
    }

    fn fits(&self, board: &Board, vcpus: &[Vcpu]) -> bool {
        let Some(vcpu) = vcpus.get(self.vcpu as usize) else {
            return false;
        };
        (1..=LONGEST).contains(&self.period)
            && (1..=self.period).contains(&self.deadline)
            && !unfit(self.set, board.grants[vcpu.domain as usize])
            && self.costs.iter().all(|cost| (1..=LONGEST).contains(cost))
            && self.costs.windows(2).all(|pair| pair[1] <= pair[0])
    }
}

pub fn tasks(words: &[u32]) -> Vec<Task> {
    words.chunks_exact(TASK_WORDS).map(Task::read).collect()
}

/// The part of any list of task words that belongs to the VCPU: from its first row up to the next row of
/// another VCPU. Words short of a row belong to none.
pub fn part(words: &[u32], vcpu: u32) -> &[u32] {
    let own = |row: &[u32]| row[0] == vcpu;
    let rows = || words.chunks_exact(TASK_WORDS);
    let before = rows().take_while(|row| !own(row)).count();
    let length = rows().skip(before).take_while(|row| own(row)).count();
    &words[before * TASK_WORDS..][..length * TASK_WORDS]
}

/// The least supply in t of a periodic resource (Shin and Lee).
pub fn supply(period: u32, budget: u32, t: u64) -> u64 {
    let [period, budget] = [period, budget].map(u64::from);
    let gap = period - budget;
    match t.checked_sub(gap) {
        None => 0,
        Some(u) => u / period * budget + (u % period).saturating_sub(gap),
    }
}

/// An earlier row: what it asks for in each of its periods, at the expense of the rows behind it.
#[derive(Clone, Copy, Debug, PartialEq, Eq)]
pub struct Earlier {
    pub period: u64,
    pub charge: u64,
}

/// The need in t: the row's own cost or budget, and what the earlier rows ask for.
fn need_in(t: u64, own: u32, earlier: &[Earlier]) -> u64 {
    let asked = |row: &Earlier| t.div_ceil(row.period) * row.charge;
    u64::from(own) + earlier.iter().map(asked).sum::<u64>()
}

/// What a row's time is searched by. A VCPU's deadline is its period.
#[derive(Clone, Debug, PartialEq, Eq)]
pub struct Search {
    pub deadline: u32,
    /// The row's own cost or budget.
    pub own: u32,
    pub earlier: Vec<Earlier>,
    /// The period and budget that a task is supplied by. A VCPU's supply in t is t itself.
    pub resource: Option<[u32; 2]>,
}

/// How a search by rounds ends: at a time, or beyond the deadline with none.
#[derive(Clone, Copy, Debug, PartialEq, Eq)]
pub struct Rounds {
    pub count: u32,
    pub time: Option<u32>,
}

impl Search {
    pub fn of_vcpu(vcpus: &[Vcpu], row: usize) -> Self {
        let on_core = |other: &&Vcpu| other.core == vcpus[row].core;
        let earlier = vcpus[..row].iter().filter(on_core).map(|other| Earlier {
            period: other.period.into(),
            charge: other.budget.into(),
        });
        Search {
            deadline: vcpus[row].period,
            own: vcpus[row].budget,
            earlier: earlier.collect(),
            resource: None,
        }
    }

    /// That of the task at a place of its VCPU's part; no row outside the part counts.
    pub fn of_task(vcpu: &Vcpu, reload: u32, part: &[u32], place: usize) -> Self {
        let part = tasks(part);
        let earlier = (0..place).map(|j| Earlier {
            period: part[j].period.into(),
            charge: u64::from(part[j].cost())
                + u64::from(reload) * u64::from(reloaded(&part, j, place)),
        });
        Search {
            deadline: part[place].deadline,
            own: part[place].cost(),
            earlier: earlier.collect(),
            resource: Some([vcpu.period, vcpu.budget]),
        }
    }

    pub fn supply(&self, t: u64) -> u64 {
        match self.resource {
            None => t,
            Some([period, budget]) => supply(period, budget, t),
        }
    }

    pub fn time(&self) -> Option<u32> {
        match self.resource {
            None => self.first_time(|t| t),
            Some([period, budget]) => self.first_time(|t| supply(period, budget, t)),
        }
    }

    /// The first t from 1 to the deadline with supply at least the need. To save time the need is carried
    /// along and not added up anew for each t: t / period rounded up is one more at 1 and after each
    /// multiple of the period, and only there.
    fn first_time(&self, supply: impl Fn(u64) -> u64) -> Option<u32> {
        let mut need = u64::from(self.own);
        let mut rises = vec![1; self.earlier.len()];
        let mut soonest = 1;
        for t in 1..=self.deadline {
            let now = u64::from(t);
            if now == soonest {
                soonest = u64::MAX;
                for (rise, row) in rises.iter_mut().zip(&self.earlier) {
                    if *rise == now {
                        need += row.charge;
                        *rise += row.period;
                    }
                    soonest = soonest.min(*rise);
                }
            }
            if supply(now) >= need {
                assert_eq!(need, need_in(now, self.own, &self.earlier));
                return Some(t);
            }
        }
        None
    }

    /// The first microsecond whose supply covers the need, none where that is beyond the deadline; none before
    /// `from` covers it. As no supply falls, microseconds are tried at doubling distances up to one that
    /// covers it, and then halfway between that and the last that does not.
    fn first_covering(&self, from: u64, need: u64) -> Option<u64> {
        let covers = |t| self.supply(t) >= need;
        assert!(from == 1 || !covers(from - 1));
        let beyond = u64::from(self.deadline) + 1;
        let (mut without, mut with) = (from - 1, beyond);
        let mut step = 1;
        while without + step < with {
            if covers(without + step) {
                with = without + step;
            } else {
                without += step;
                step *= 2;
            }
        }
        while without + 1 < with {
            let between = (without + with) / 2;
            match covers(between) {
                true => with = between,
                false => without = between,
            }
        }
        (with < beyond).then_some(with)
    }

    /// Document 02, No. 9: a round starts at t, works out the need in t and takes the first microsecond
    /// whose supply covers it, until this is t or beyond the deadline; the last round counts too.
    pub fn rounds(&self) -> Rounds {
        let mut t = 1;
        let mut count = 0;
        let time = loop {
            count += 1;
            let need = need_in(t, self.own, &self.earlier);
            // t was the first to cover an earlier need, which was no larger
            match self.first_covering(t, need) {
                Some(first) if first != t => t = first,
                ended => break ended.map(|time| time as u32),
            }
        };
        assert!(u64::from(count) <= self.bound() && count <= self.deadline);
        Rounds { count, time }
    }

    /// The most rounds that it can take, late or not: 2, and for each earlier row the deadline over that
    /// row's period rounded up, less 1.
    pub fn bound(&self) -> u64 {
        let deadline = u64::from(self.deadline);
        let more = |row: &Earlier| deadline.div_ceil(row.period) - 1;
        2 + self.earlier.iter().map(more).sum::<u64>()
    }
}

pub fn vcpu_time(vcpus: &[Vcpu], row: usize) -> Option<u32> {
    Search::of_vcpu(vcpus, row).time()
}

/// The colours of row j that an arrival of j has reloaded before the task at that place is done: those of
/// j that lie in the union of rows j + 1 up to the place, the task in question among them. Each counts
/// once, however many of these rows hold it (document 02, No. 3; equation (3) of document 000).
fn reloaded(part: &[Task], j: usize, place: usize) -> u32 {
    let union = part[j + 1..=place]
        .iter()
        .fold(0, |union, task| union | task.set);
    (part[j].set & union).count_ones()
}

pub fn task_time(vcpu: &Vcpu, reload: u32, part: &[u32], place: usize) -> Option<u32> {
    Search::of_task(vcpu, reload, part, place).time()
}

#[derive(Clone, Debug, PartialEq, Eq)]
pub struct Plan {
    pub board: Board,
    pub reload: u32,
    pub vcpus: Vec<u32>,
    pub tasks: Vec<u32>,
}

#[derive(Clone, Copy, Debug, PartialEq, Eq)]
pub struct Admitted;

impl fmt::Display for Admitted {
    fn fmt(&self, f: &mut fmt::Formatter) -> fmt::Result {
        write!(f, "admitted")
    }
}

/// Whether there are none of the words, or more than so many rows, or part of a row.
fn unfit_length(words: &[u32], row: usize, rows: usize) -> bool {
    words.is_empty() || words.len() > row * rows || !words.len().is_multiple_of(row)
}

/// Refuses with the number where a row is at fault, and names the lowest.
fn test(number: u32, rows: usize, at_fault: impl Fn(usize) -> bool) -> Result<(), (u32, u32)> {
    match (0..rows).find(|row| at_fault(*row)) {
        Some(row) => Err((number, row as u32)),
        None => Ok(()),
    }
}

/// What admission finds of a row.
#[derive(Clone, Copy, Debug, PartialEq, Eq)]
pub struct Found {
    pub time: u32,
    pub rounds: u32,
}

impl Plan {
    pub fn rows(&self) -> usize {
        self.vcpus.len() / VCPU_WORDS + self.tasks.len() / TASK_WORDS
    }

    /// Refusals 2 to 20, where the lent lists of times and of rounds are that long.
    pub fn refused(&self, times: usize, rounds: usize) -> Result<(), (u32, u32)> {
        // admission is lent no frame table, so that 3 tests F alone
        if let Some(refusal) = refused_board(&self.board, None) {
            return Err(refusal);
        }
        if self.reload > RELOAD || unfit_length(&self.vcpus, VCPU_WORDS, VCPUS) {
            return Err((15, 0));
        }
        let rows = self.rows();
        if unfit_length(&self.tasks, TASK_WORDS, TASKS) || times < rows || rounds < rows {
            return Err((16, 0));
        }
        let vcpus = vcpus(&self.vcpus);
        test(17, vcpus.len(), |row| !vcpus[row].fits(&self.board))?;
        let tasks = tasks(&self.tasks);
        test(18, tasks.len(), |row| !tasks[row].fits(&self.board, &vcpus))?;
        test(19, tasks.len(), |row| {
            row > 0 && tasks[row].vcpu < tasks[row - 1].vcpu
        })?;
        // whatever their cores; of the two rows the lower is found first
        test(20, tasks.len(), |row| {
            let shares =
                |other: &Task| other.vcpu != tasks[row].vcpu && other.set & tasks[row].set != 0;
            tasks.iter().any(shares)
        })
    }

    /// The searches of the VCPUs and then of the tasks, in row order, of a plan that passes 2 to 20; each
    /// with the refusal where it is late.
    pub fn searches(&self) -> impl Iterator<Item = (Search, (u32, u32))> + '_ {
        let vcpus = vcpus(&self.vcpus);
        let tasks = tasks(&self.tasks);
        (0..self.rows()).map(move |place| match place.checked_sub(vcpus.len()) {
            None => (Search::of_vcpu(&vcpus, place), (21, place as u32)),
            Some(row) => {
                let name = tasks[row].vcpu;
                let place = tasks[..row].iter().filter(|other| other.vcpu == name);
                let vcpu = &vcpus[name as usize];
                let part = part(&self.tasks, name);
                let search = Search::of_task(vcpu, self.reload, part, place.count());
                (search, (22, row as u32))
            }
        })
    }

    /// What is found of the VCPUs and then of the tasks, in row order, or the number and row of the refusal.
    /// `times` and `rounds` are the lengths of the two lent lists.
    pub fn found(&self, times: usize, rounds: usize) -> Result<Vec<Found>, (u32, u32)> {
        self.refused(times, rounds)?;
        let found = self.searches().map(|(search, late)| {
            let rounds = search.rounds();
            // by the two ways, late or not
            assert_eq!(rounds.time, search.time());
            let time = rounds.time.ok_or(late)?;
            let rounds = rounds.count;
            Ok(Found { time, rounds })
        });
        found.collect()
    }

    /// The times alone; `room` is the length of either list.
    pub fn times(&self, room: usize) -> Result<Vec<u32>, (u32, u32)> {
        let found = self.found(room, room)?;
        Ok(found.iter().map(|row| row.time).collect())
    }

    /// The rounds alone.
    pub fn rounds(&self, room: usize) -> Result<Vec<u32>, (u32, u32)> {
        let found = self.found(room, room)?;
        Ok(found.iter().map(|row| row.rounds).collect())
    }

    pub fn admit(&self, times: &mut [u32], rounds: &mut [u32]) -> Reply<Admitted> {
        match self.found(times.len(), rounds.len()) {
            Err((number, row)) => Reply::Refused { number, row },
            Ok(found) => {
                for ((row, time), rounds) in found.iter().zip(times).zip(rounds) {
                    *time = row.time;
                    *rounds = row.rounds;
                }
                Reply::Answer(Admitted)
            }
        }
    }
}

#[cfg(test)]
mod tests {
    use super::*;
    use crate::model::frames::{DOMAINS, QUOTA};
    use crate::random::Random;

    /// One domain with colours 0 to 7, and one VCPU.
    fn recorder(reload: u32, vcpu: [u32; 4], rows: &[[u32; 5]]) -> Plan {
        let mut grants = [0; DOMAINS];
        grants[0] = 255;
        let board = Board {
            colours: 16,
            frames: 64,
            domains: 1,
            grants,
            active: grants,
            quotas: [QUOTA; DOMAINS],
        };
        let mut tasks = Vec::new();
        for [vcpu, period, deadline, set, cost] in rows {
            tasks.extend([*vcpu, *period, *deadline, *set]);
            tasks.extend([*cost; 16]);
        }
        Plan {
            board,
            reload,
            vcpus: vcpu.to_vec(),
            tasks,
        }
    }

    #[test]
    fn supply_of_document_01() {
        for (t, least) in [(4000, 0), (6999, 2999), (7000, 3000), (9000, 3000)] {
            assert_eq!(supply(5000, 3000, t), least);
        }
        assert_eq!(supply(1, 1, u32::MAX.into()), u32::MAX.into());
    }

    #[test]
    fn lone_task_of_document_01() {
        let lone = |deadline| recorder(0, [0, 0, 5000, 3000], &[[0, 20_000, deadline, 1, 3000]]);
        assert_eq!(lone(7000).times(2), Ok(vec![3000, 7000]));
        assert_eq!(lone(6999).times(2), Err((22, 0)));
    }

    #[test]
    fn three_tasks_of_document_01() {
        let three = |last| {
            let row = |set, cost| [0, 10_000, 10_000, set, cost];
            let rows = [row(1, 4000), row(2, 4000), row(4, last)];
            recorder(0, [0, 0, 10_000, 10_000], &rows)
        };
        assert_eq!(three(3000).times(4), Err((22, 2)));
        assert_eq!(three(2000).times(4), Ok(vec![10_000, 4000, 8000, 10_000]));
    }

    fn reloading(reload: u32, cost: u32) -> Plan {
        let rows = [[0, 4000, 4000, 0x3, 1000], [0, 10_000, 10_000, 0x6, cost]];
        recorder(reload, [0, 0, 10_000, 10_000], &rows)
    }

    #[test]
    fn reload_of_document_01() {
        let second = |reload, cost| reloading(reload, cost).times(3).unwrap()[2];
        assert_eq!(second(100, 2500), 3600);
        assert_eq!(second(100, 3000), 5200);
        assert_eq!(second(0, 3000), 4000);
    }

    /// Document 02, No. 6: 26 is "not in admission".
    #[test]
    fn quotas_are_not_tested() {
        for quota in [0, 4097, u32::MAX] {
            let mut plan = reloading(100, 3000);
            plan.board.quotas = [quota; DOMAINS];
            assert_eq!(plan.times(3), Ok(vec![10_000, 1000, 5200]));
        }
    }

    /// Tasks of cost 1,000 with those sets and an L of 100, each of which arrives once: their times.
    fn nested(sets: &[u32]) -> Vec<u32> {
        let rows: Vec<_> = sets
            .iter()
            .map(|set| [0, 10_000, 10_000, *set, 1000])
            .collect();
        let plan = recorder(100, [0, 0, 10_000, 10_000], &rows);
        plan.times(1 + sets.len()).unwrap()
    }

    #[test]
    fn nested_reload_of_document_02() {
        assert_eq!(nested(&[0x1, 0x1, 0x2]), [10_000, 1000, 2100, 3100]);
    }

    /// Not pair by pair, which gives the third row 3,000 above: here each pair of rows that are next to
    /// each other shares a colour, and no other pair. Pair by pair the times are 3,100 and 4,100.
    #[test]
    fn the_rows_between_count() {
        let times = nested(&[0x3, 0x6, 0xC, 0x18]);
        assert_eq!(times, [10_000, 1000, 2100, 3200, 4300]);
        // four rows between: colour 0 is met in the second row alone
        let times = nested(&[0x1, 0x1, 0x2, 0x4, 0x8, 0x10]);
        assert_eq!(times, [10_000, 1000, 2100, 3100, 4100, 5100, 6100]);
    }

    /// Not the rows between alone: the first and the third row share, and the second shares with none.
    /// Without the third row's own set its time is 3,000.
    #[test]
    fn the_task_in_question_counts() {
        assert_eq!(nested(&[0x1, 0x2, 0x1]), [10_000, 1000, 2000, 3100]);
    }

    /// Not all of j's colours: with j's own set in the union the times are 2,200 and 3,300.
    #[test]
    fn j_itself_does_not_count() {
        assert_eq!(nested(&[0x3, 0x4, 0x8]), [10_000, 1000, 2000, 3000]);
    }

    /// Not the rows before j: the second row shares colour 0 with the first, and nothing with the third.
    /// With the first row in the union of the second the third time is 3,200.
    #[test]
    fn rows_before_j_do_not_count() {
        assert_eq!(nested(&[0x1, 0x3, 0x4]), [10_000, 1000, 2100, 3100]);
    }

    /// Not a sum over rows: two later rows hold the one colour. Were it counted for each of them the third
    /// time would be 3,300.
    #[test]
    fn a_colour_counts_once() {
        assert_eq!(nested(&[0x1, 0x1, 0x1]), [10_000, 1000, 2100, 3200]);
    }

    /// Not the colours of the union: by their count the times are 2,200 and 3,400, and then 2,200 and
    /// 3,300.
    #[test]
    fn only_colours_of_j_count() {
        assert_eq!(nested(&[0x1, 0x6, 0x8]), [10_000, 1000, 2000, 3000]);
        assert_eq!(nested(&[0x3, 0x6, 0x4]), [10_000, 1000, 2100, 3200]);
    }

    /// Not rows behind the task in question: only the third row holds the first row's colour, and with it
    /// the second time is 2,100.
    #[test]
    fn rows_behind_do_not_count() {
        assert_eq!(nested(&[0x1, 0x2, 0x1])[2], 2000);
    }

    /// Each arrival is charged. An arrival of the first row takes 900 and a reload of 100, since the second
    /// row shares its colour. The second is done at 1,500, just as the first arrives again. The third needs
    /// 600 + 500 and two arrivals, 3,100 in all, so a further one at 3,000 adds 1,000: 4,100. Pair by pair
    /// two arrivals of 900 would do: 2,900.
    #[test]
    fn each_arrival_is_charged() {
        let rows = [
            [0, 1500, 1500, 0x1, 900],
            [0, 10_000, 10_000, 0x1, 500],
            [0, 10_000, 10_000, 0x2, 600],
        ];
        let plan = recorder(100, [0, 0, 10_000, 10_000], &rows);
        assert_eq!(plan.times(4), Ok(vec![10_000, 900, 1500, 4100]));
    }

    /// Not rows of another VCPU. In a plan that passes refusal 20 these share no colour with j, so the list
    /// here is no such plan: the second row of VCPU 1 shares nothing with the first of its part, though the
    /// rows of VCPUs 0 and 2 hold that one's colour. With either of them in the union it takes 2,100.
    #[test]
    fn rows_of_another_vcpu_do_not_count() {
        let row = |vcpu, set| [vcpu, 10_000, 10_000, set, 1000];
        let rows = [row(0, 0x2), row(1, 0x2), row(1, 0x4), row(2, 0x2)];
        let list = recorder(100, [0, 0, 10_000, 10_000], &rows);
        let vcpu = vcpus(&list.vcpus)[0];
        assert_eq!(task_time(&vcpu, 100, part(&list.tasks, 1), 1), Some(2000));
        // rows are counted from the first of the part: the whole list's first three share nothing with VCPU 1
        let rows = [(0, 0x1), (0, 0x1), (0, 0x1), (1, 0x2), (1, 0x2), (1, 0x4)];
        let mut plan = recorder(
            100,
            [0, 0, 10_000, 10_000],
            &rows.map(|(vcpu, set)| row(vcpu, set)),
        );
        plan.vcpus.extend([1, 0, 10_000, 10_000]);
        let times = [1000, 2100, 3200, 1000, 2100, 3100];
        assert_eq!(plan.times(8), Ok([&[10_000; 2][..], &times].concat()));
    }

    /// The VCPU's budget takes two rounds, and so does the first task. The second needs 3,000 + 1,100 at
    /// first, in 4,100 a second arrival of the first more, and in 5,200 no more.
    #[test]
    fn times_and_rounds_go_to_the_front_of_the_lent_lists() {
        let plan = reloading(100, 3000);
        let (mut times, mut rounds) = ([7; 5], [9; 4]);
        assert_eq!(plan.admit(&mut times, &mut rounds), Reply::Answer(Admitted));
        assert_eq!(times, [10_000, 1000, 5200, 7, 7]);
        assert_eq!(rounds, [2, 2, 3, 9]);
    }

    #[test]
    fn a_refusal_writes_neither_list() {
        let plan = reloading(100, 3000);
        for (long, short) in [(3, 2), (5, 0), (0, 0)] {
            for (times, rounds) in [(long, short), (short, long)] {
                let mut lists = [vec![7; times], vec![9; rounds]];
                let [t, r] = &mut lists;
                assert_eq!(plan.admit(t, r), Reply::refused(16));
                assert_eq!(lists, [vec![7; times], vec![9; rounds]]);
            }
        }
        let late = reloading(100, 9000);
        let mut lists = [[7; 3], [9; 3]];
        let [t, r] = &mut lists;
        assert_eq!(late.admit(t, r), Reply::Refused { number: 22, row: 1 });
        assert_eq!(lists, [[7; 3], [9; 3]]);
    }

    #[test]
    fn part_of_any_list() {
        let mut words = Vec::new();
        for vcpu in [3, 1, 1, u32::MAX, 1] {
            words.extend([vcpu; TASK_WORDS]);
        }
        words.extend([9; TASK_WORDS - 1]);
        assert_eq!(part(&words, 3), &words[..20]);
        assert_eq!(part(&words, 1), &words[20..60]);
        assert_eq!(part(&words, u32::MAX), &words[60..80]);
        assert_eq!(part(&words, 9), &[]);
        assert_eq!(part(&[], 0), &[]);
    }

    /// One number over all rows before the next; the later of two rows in the wrong order, the lower of
    /// two that share a colour; the rows of the whole task list.
    #[test]
    fn refusals_in_order() {
        let row = |vcpu, set, cost| [vcpu, 100, 100, set, cost];
        let rows = [row(1, 1, 200), row(0, 2, 1), row(1, 0, 1), row(2, 4, 1)];
        let mut plan = recorder(0, [0, 0, 100, 101], &rows);
        plan.vcpus.extend([0, 0, 100, 100]);
        plan.reload = RELOAD + 1;
        assert_eq!(plan.found(5, 0), Err((15, 0)));
        plan.reload = RELOAD;
        assert_eq!(plan.found(5, 6), Err((16, 0)));
        assert_eq!(plan.found(6, 5), Err((16, 0)));
        assert_eq!(plan.times(6), Err((17, 0)));
        plan.vcpus[3] = 1;
        assert_eq!(plan.times(6), Err((18, 2)));
        plan.tasks[43] = 2;
        assert_eq!(plan.times(6), Err((18, 3)));
        plan.tasks[60] = 1;
        assert_eq!(plan.times(6), Err((19, 1)));
        plan.tasks[0] = 0;
        assert_eq!(plan.times(6), Err((20, 1)));
        plan.tasks[43] = 8;
        assert_eq!(plan.times(6), Err((21, 1)));
        plan.vcpus[4] = 3;
        assert_eq!(plan.times(6), Err((22, 0)));
    }

    /// A plan of one domain: VCPU rows, and task rows with a colour each, as long as there are some.
    fn plan_of(vcpus: &[[u32; 4]], rows: &[[u32; 4]]) -> Plan {
        let rows: Vec<[u32; 5]> = rows
            .iter()
            .enumerate()
            .map(|(row, [vcpu, period, deadline, cost])| {
                [*vcpu, *period, *deadline, 1 << row, *cost]
            })
            .collect();
        let mut plan = recorder(0, [0; 4], &rows);
        plan.vcpus = vcpus.concat();
        plan
    }

    /// The rounds of a lone task.
    fn alone(supplied: [u32; 2], cost: u32) -> u32 {
        let [period, budget] = supplied;
        let plan = plan_of(&[[0, 0, period, budget]], &[[0, LONGEST, LONGEST, cost]]);
        plan.rounds(2).unwrap()[1]
    }

    /// Cost 1 under full supply is covered in 1, where the round started. Cost 2 is first covered in 2, and a
    /// round from there sees that it is. So for any other cost, and where the supply starts late: of period
    /// 5 and budget 3 it first covers 1 in 5.
    #[test]
    fn the_round_that_ends_the_search_counts() {
        assert_eq!(alone([1, 1], 1), 1);
        assert_eq!(alone([LONGEST, LONGEST], 1), 1);
        assert_eq!(alone([1, 1], 2), 2);
        assert_eq!(alone([LONGEST, LONGEST], LONGEST), 2);
        assert_eq!(alone([5, 3], 1), 2);
        // and of VCPUs
        let plan = plan_of(&[[0, 0, 9, 1], [1, 0, 9, 2]], &[[0, 99, 99, 1]]);
        assert_eq!(plan.rounds(3).unwrap()[..2], [1, 2]);
    }

    /// In t the last row needs 1,000 and 999 for each 1,000 begun: 1,999 at first, then 2,998, and so on. The
    /// k-th round starts at 1,000 k − (k − 1), where k are begun, up to the 1,001st: it starts at 1,000,000,
    /// where 1,000 are begun and 1,000 + 999,000 needed. The bound is 2 + 1,000 − 1.
    #[test]
    fn a_plan_at_its_bound() {
        let whole = [0, 0, LONGEST, LONGEST];
        let rows = [[0, 1000, 1000, 999], [0, LONGEST, LONGEST, 1000]];
        let plan = plan_of(&[whole], &rows);
        let found = plan.found(3, 3).unwrap();
        assert_eq!((found[2].time, found[2].rounds), (LONGEST, 1001));
        assert_eq!(plan.rounds(3), Ok(vec![2, 2, 1001]));
        let bounds: Vec<u64> = plan.searches().map(|(search, _)| search.bound()).collect();
        assert_eq!(bounds, [2, 2, 1001]);
        // the same of VCPUs, on one core with others between
        let vcpus = [[2, 0, 1000, 999], [1, 0, 1000, 1000], [2, 0, LONGEST, 1000]];
        let plan = plan_of(&vcpus, &[[1, 1000, 1000, 1]]);
        assert_eq!(plan.rounds(4), Ok(vec![2, 2, 1001, 1]));
        assert_eq!(plan.searches().nth(2).unwrap().0.bound(), 1001);
    }

    /// Two earlier rows, of periods 4 and 7, whose multiples meet in 28 alone. The last row needs 3 + 2 + 2
    /// in 1, 3 + 4 + 2 in 7, 3 + 6 + 4 in 9 and 3 + 8 + 4 in 13, which is 15; in 15 a third period of 7 has
    /// begun: 17, where a fifth of 4 has: 19, which suffices. So rounds start at 1, 7, 9, 13, 15, 17 and 19.
    #[test]
    fn rounds_with_two_earlier_rows() {
        let rows = [[0, 4, 4, 2], [0, 7, 7, 2], [0, 99, 20, 3]];
        let plan = plan_of(&[[0, 0, 1, 1]], &rows);
        let found = plan.found(4, 4).unwrap();
        assert_eq!((found[3].time, found[3].rounds), (19, 7));
        // 2, and 20 / 4 − 1, and 20 / 7 rounded up − 1: no more than 8
        assert_eq!(plan.searches().nth(3).unwrap().0.bound(), 8);
    }

    /// A resource of period 5 and budget 3 supplies 1, 2 and 3 in 5, 6 and 7, then 4, 5 and 6 in 10, 11 and
    /// 12, then 7, 8 and 9 in 15, 16 and 17. The first row, of cost 2 and period 10, takes rounds from 1 and
    /// 6. The second, of cost 3, needs 5 in 1, first covered in 11, where it needs 7, first covered in 15; a
    /// round from there ends the search.
    #[test]
    fn rounds_under_a_supply_with_gaps() {
        let rows = [[0, 10, 10, 2], [0, 99, 20, 3]];
        let plan = plan_of(&[[0, 0, 5, 3]], &rows);
        assert_eq!(plan.times(3), Ok(vec![3, 6, 15]));
        assert_eq!(plan.rounds(3), Ok(vec![2, 2, 3]));
        // which is its bound, 2 + 20 / 10 − 1
        assert_eq!(plan.searches().nth(2).unwrap().0.bound(), 3);
    }

    /// In t the second row needs t + 1: each round moves on by 1, and the one from the deadline ends late.
    #[test]
    fn a_late_search_by_single_microseconds() {
        for deadline in [1, 2, 50, LONGEST] {
            let rows = [[0, 1, 1, 1], [0, LONGEST, deadline, 1]];
            let plan = plan_of(&[[0, 0, 1, 1]], &rows);
            assert_eq!(plan.found(3, 3), Err((22, 1)));
            let search = plan.searches().nth(2).unwrap().0;
            let (count, time) = (deadline, None);
            assert_eq!(search.rounds(), Rounds { count, time });
            assert_eq!(search.bound(), u64::from(deadline) + 1);
        }
        let vcpus = [[0, 0, 1, 1], [0, 0, 50, 1]];
        let plan = plan_of(&vcpus, &[[0, 9, 9, 1]]);
        assert_eq!(plan.found(3, 3), Err((21, 1)));
        let search = plan.searches().nth(1).unwrap().0;
        assert_eq!((search.rounds().count, search.bound()), (50, 51));
    }

    /// Each of two cores, and of their VCPUs, has the rows of the plan with two earlier ones above. None of
    /// them counts for the other's.
    #[test]
    fn rows_of_another_core_or_vcpu_do_not_count() {
        let core = |core| [[core, 0, 4, 2], [core, 0, 7, 2], [core, 0, 20, 3]];
        let [one, other] = [core(0), core(3)];
        let mixed: Vec<[u32; 4]> = one
            .into_iter()
            .zip(other)
            .flat_map(|(a, b)| [a, b])
            .chain([[1, 0, 9, 9], [2, 0, 9, 9]])
            .collect();
        let of = |vcpu| [[vcpu, 4, 4, 2], [vcpu, 7, 7, 2], [vcpu, 99, 20, 3]];
        let plan = plan_of(&mixed, &[of(6), of(7)].concat());
        // the first of a part takes 2, the second needs 4 in 1 and in 4: 2 as well
        let part = [2, 2, 7];
        let vcpus = [2, 2, 2, 2, 7, 7, 2, 2];
        let expected = [&vcpus[..], &part, &part].concat();
        assert_eq!(plan.rounds(14), Ok(expected));
    }

    /// Searches with small numbers, as likely late as not.
    fn any_search(random: &mut Random) -> Search {
        let mut some = |n: u64| 1 + random.below(n);
        let count = some(5) - 1;
        let earlier = (0..count)
            .map(|_| Earlier {
                period: some(60),
                charge: some(20),
            })
            .collect();
        let [deadline, own, period] = [some(400), some(90), some(50)].map(|n| n as u32);
        let budget = some(period.into()) as u32;
        let resource = match some(4) {
            1 => None,
            _ => Some([period, budget]),
        };
        Search {
            deadline,
            own,
            earlier,
            resource,
        }
    }

    /// The need carried along is the need added up for each microsecond.
    #[test]
    fn scan_against_the_sums() {
        let mut random = Random::new(1);
        for _ in 0..300 {
            let search = any_search(&mut random);
            let enough = |t: &u32| {
                let t = (*t).into();
                search.supply(t) >= need_in(t, search.own, &search.earlier)
            };
            assert_eq!(search.time(), (1..=search.deadline).find(enough));
        }
    }

    /// The microsecond that a round takes is the first of all from 1 that are tried one by one, and the
    /// search ends at the first with supply at least the need in it.
    #[test]
    fn rounds_against_microseconds_from_1() {
        let mut random = Random::new(2);
        let (mut on_time, mut late) = (0, 0);
        for _ in 0..3000 {
            let search = any_search(&mut random);
            let mut starts = vec![1];
            let time = loop {
                let t = *starts.last().unwrap();
                let need = need_in(t, search.own, &search.earlier);
                let first = (1..).find(|t| search.supply(*t) >= need).unwrap();
                if first == t {
                    break Some(t as u32);
                } else if first > search.deadline.into() {
                    break None;
                }
                starts.push(first);
            };
            let count = starts.len() as u32;
            assert_eq!(search.rounds(), Rounds { count, time });
            assert_eq!(search.time(), time);
            assert!(u64::from(count) <= search.bound());
            match time {
                Some(_) => on_time += 1,
                None => late += 1,
            }
        }
        assert!(on_time > 500 && late > 500);
    }

    /// Of every row of random plans, and not the first late one alone, the rounds keep to the bound and to
    /// the deadline.
    #[test]
    fn rounds_keep_to_their_bound() {
        let mut random = Random::new(3);
        let (mut at_bound, mut late) = (0, 0);
        for i in 0..60 {
            let mut plan = crate::random::plans::admitted(&mut random, 1 + i % VCPUS, 1 + i % 9);
            if i % 2 == 0 {
                // costs and budgets that are too high for some of the rows
                for row in plan.tasks.chunks_exact_mut(TASK_WORDS) {
                    let more = LONGEST.min(1 + 2 * row[4]);
                    row[4..].fill(more);
                }
                for row in plan.vcpus.chunks_exact_mut(VCPU_WORDS) {
                    row[3] = row[2].min(2 * row[3]);
                }
            }
            assert_eq!(plan.refused(99, 99), Ok(()));
            for (search, _) in plan.searches() {
                let rounds = search.rounds();
                assert!(u64::from(rounds.count) <= search.bound());
                assert!(rounds.count <= search.deadline);
                assert_eq!(rounds.time, search.time());
                at_bound += u32::from(u64::from(rounds.count) == search.bound());
                late += u32::from(rounds.time.is_none());
            }
        }
        assert!(at_bound > 0 && late > 0);
    }
}
