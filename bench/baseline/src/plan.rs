//! Admission of a plan, with the reload of document 02, No. 3, and the rounds of No. 9. A time is found by
//! rounds, which are counted: from t to the first microsecond whose supply covers the need in t, until that
//! is t itself or lies beyond the deadline. What the earlier tasks ask for is worked out once for a search.

use crate::{demand, demand_rows, Board, Refusal};

const LONGEST: u32 = 1_000_000;
const VCPU_WORDS: usize = 4;
const TASK_WORDS: usize = 20;
/// All rows of a plan.
const MOST: usize = 48;

#[derive(Clone, Copy)]
struct Vcpu<'a>(&'a [u32]);

impl Vcpu<'_> {
    #[inline]
    fn fits(self, board: &Board) -> bool {
        let row = self.0;
        row[0] < 4
            && row[1] < board.domains
            && (1..=LONGEST).contains(&row[2])
            && (1..=row[2]).contains(&row[3])
    }
}

#[derive(Clone, Copy)]
struct Task<'a>(&'a [u32]);

impl Task<'_> {
    #[inline]
    fn set(self) -> u32 {
        self.0[3]
    }

    /// The cost with as many colours as the set has.
    #[inline]
    fn cost(self) -> u32 {
        self.0[3 + self.set().count_ones() as usize]
    }

    #[inline]
    fn fits(self, board: &Board, vcpus: Rows) -> bool {
        let row = self.0;
        if row[0] as usize >= vcpus.count() {
            return false;
        }
        let grant = board.grants[vcpus.row(row[0] as usize)[1] as usize];
        let costs = &row[4..];
        (1..=LONGEST).contains(&row[1])
            && (1..=row[1]).contains(&row[2])
            && row[3] != 0
            && row[3] & !grant == 0
            && costs.iter().all(|cost| (1..=LONGEST).contains(cost))
            && costs.windows(2).all(|pair| pair[1] <= pair[0])
    }
}

/// A list of words as rows.
#[derive(Clone, Copy)]
struct Rows<'a> {
    words: &'a [u32],
    width: usize,
}

impl<'a> Rows<'a> {
    #[inline]
    fn count(self) -> usize {
        self.words.len() / self.width
    }

    #[inline]
    fn row(self, row: usize) -> &'a [u32] {
        &self.words[row * self.width..][..self.width]
    }

    #[inline]
    fn fit(self, most: usize) -> bool {
        let length = self.words.len();
        length > 0 && length <= most * self.width && length.is_multiple_of(self.width)
    }
}

/// Refusals 15 to 20; the room is the length of the shorter of the lists of times and of rounds.
#[inline]
fn check(board: &Board, reload: u32, vcpus: Rows, tasks: Rows, room: usize) -> Result<(), Refusal> {
    demand(reload <= 10_000 && vcpus.fit(16), 15, 0)?;
    let rows = vcpus.count() + tasks.count();
    demand(tasks.fit(32) && room >= rows, 16, 0)?;
    demand_rows(vcpus.count(), 17, |row| !Vcpu(vcpus.row(row)).fits(board))?;
    let count = tasks.count();
    demand_rows(count, 18, |row| !Task(tasks.row(row)).fits(board, vcpus))?;
    demand_rows(count, 19, |row| {
        row > 0 && tasks.row(row)[0] < tasks.row(row - 1)[0]
    })?;
    // of two that share, the lower is at fault first
    demand_rows(count, 20, |row| {
        let own = tasks.row(row);
        (row + 1..count).any(|other| {
            let other = tasks.row(other);
            other[0] != own[0] && other[3] & own[3] != 0
        })
    })
}

/// The first microsecond by which so much has been supplied.
#[inline]
fn first_supply(period: u64, budget: u64, amount: u64) -> u64 {
    let before = amount - 1;
    2 * (period - budget) + before / budget * period + before % budget + 1
}

/// A time, and the rounds of its search.
#[derive(Clone, Copy, Default)]
struct Found {
    time: u32,
    rounds: u32,
}

/// A time by rounds, for any need and supply; no supply exceeds its time.
#[inline]
fn first_time(due: u32, need: impl Fn(u64) -> u64, supplied: impl Fn(u64) -> u64) -> Option<Found> {
    let due = u64::from(due);
    let mut t = 1;
    let mut rounds = 0;
    while t <= due {
        rounds += 1;
        let need = need(t);
        if need > due {
            return None;
        }
        let next = supplied(need);
        if next <= t {
            let time = t as u32;
            return Some(Found { time, rounds });
        }
        t = next;
    }
    None
}

#[inline]
fn vcpu_time(vcpus: Rows, row: usize) -> Option<Found> {
    let own = vcpus.row(row);
    let need = |t: u64| {
        let earlier = vcpus.words.chunks_exact(VCPU_WORDS).take(row);
        let asked = earlier
            .filter(|other| other[0] == own[0])
            .map(|other| t.div_ceil(other[2].into()) * u64::from(other[3]));
        u64::from(own[3]) + asked.sum::<u64>()
    };
    first_time(own[2], need, |amount| amount)
}

/// An earlier row of the part: its period, and what an arrival of it costs the later one.
type Earlier = (u64, u64);

/// Fills in the rows before the place, from the nearest up: the colours that an arrival has reloaded are
/// those that lie in the union of the rows between it and the place, and of the row there.
#[inline]
fn fill_earlier(reload: u32, part: Rows, place: usize, earlier: &mut [Earlier]) {
    let mut union = Task(part.row(place)).set();
    for (row, earlier) in earlier.iter_mut().enumerate().rev() {
        let task = Task(part.row(row));
        let reloaded = (task.set() & union).count_ones();
        let charge = u64::from(task.cost()) + u64::from(reload) * u64::from(reloaded);
        *earlier = (task.0[1].into(), charge);
        union |= task.set();
    }
}

/// The time of the row at that place of its VCPU's part.
#[inline]
fn task_time(vcpu: &[u32], reload: u32, part: Rows, place: usize) -> Option<Found> {
    let own = Task(part.row(place));
    let mut earlier = [(0, 0); 32];
    let earlier = &mut earlier[..place];
    fill_earlier(reload, part, place, earlier);
    let cost = u64::from(own.cost());
    let need = |t: u64| {
        let asked = earlier
            .iter()
            .map(|(period, charge)| t.div_ceil(*period) * charge);
        cost + asked.sum::<u64>()
    };
    let [period, budget] = [vcpu[2], vcpu[3]].map(u64::from);
    first_time(own.0[2], need, |amount| {
        first_supply(period, budget, amount)
    })
}

/// A list of words, and how many make a row.
fn rows(words: &[u32], width: usize) -> Rows<'_> {
    Rows { words, width }
}

#[inline]
fn vcpu_times(vcpus: Rows, found: &mut [Found]) -> Result<(), Refusal> {
    for (row, found) in found.iter_mut().enumerate() {
        match vcpu_time(vcpus, row) {
            Some(time) => *found = time,
            None => return demand(false, 21, row),
        }
    }
    Ok(())
}

/// The times of all tasks, each worked out over the part of its VCPU alone.
#[inline]
fn task_times(reload: u32, vcpus: Rows, tasks: Rows, found: &mut [Found]) -> Result<(), Refusal> {
    let mut first = 0;
    while first < tasks.count() {
        let vcpu = tasks.row(first)[0];
        let own = |row: &usize| tasks.row(*row)[0] == vcpu;
        let end = first + (first..tasks.count()).take_while(own).count();
        let part = rows(
            &tasks.words[first * TASK_WORDS..end * TASK_WORDS],
            TASK_WORDS,
        );
        for (place, found) in found[first..end].iter_mut().enumerate() {
            match task_time(vcpus.row(vcpu as usize), reload, part, place) {
                Some(time) => *found = time,
                None => return demand(false, 22, first + place),
            }
        }
        first = end;
    }
    Ok(())
}

/// Times and rounds are kept apart until no row is late, so that a refusal leaves the lent lists alone.
#[inline(never)]
#[export_name = "baseline_admit_plan"]
pub fn admit_plan(
    board: &Board,
    reload: u32,
    vcpus: &[u32],
    tasks: &[u32],
    times: &mut [u32],
    rounds: &mut [u32],
) -> Result<(), Refusal> {
    board.check(None)?;
    let vcpus = rows(vcpus, VCPU_WORDS);
    let tasks = rows(tasks, TASK_WORDS);
    check(board, reload, vcpus, tasks, times.len().min(rounds.len()))?;
    let count = vcpus.count();
    let all = count + tasks.count();
    let mut found = [Found::default(); MOST];
    vcpu_times(vcpus, &mut found[..count])?;
    task_times(reload, vcpus, tasks, &mut found[count..])?;
    for ((found, time), rounds) in found[..all].iter().zip(times).zip(rounds) {
        *time = found.time;
        *rounds = found.rounds;
    }
    Ok(())
}
