//! Plans by whose rounds a wrong reading of document 02, No. 9, shows: searches that take as many rounds as
//! they may, of tasks and of VCPUs, with one earlier row and with several, under full supply and under one
//! with gaps; late ones; and crowded plans of several VCPUs. That enough of the plans tell each wrong reading
//! from the right one is seen here, so that the vectors cannot stop doing so.

use super::plans::lone_vcpu;
use crate::model::plans::{
    part, tasks, vcpus, Earlier, Found, Plan, Search, CORES, LONGEST, TASK_WORDS, VCPU_WORDS,
};
use crate::random::plans::{stretched, task_row, vcpu_row, DEADLINE, VCPU_PERIOD};
use crate::random::Random;

/// One domain with all colours; the rows are VCPU, period, deadline, colour set and one cost for any number
/// of colours.
fn plan(reload: u32, vcpus: &[[u32; 4]], rows: &[[u32; 5]]) -> Plan {
    let mut plan = lone_vcpu(0xFFFF, reload, [1, 1], &[]);
    plan.vcpus = vcpus.concat();
    for [vcpu, period, deadline, set, cost] in rows {
        plan.tasks.extend([*vcpu, *period, *deadline, *set]);
        plan.tasks.extend([*cost; 16]);
    }
    plan
}

/// An earlier row's period and what it leaves of each, and the cost of the row behind it, which is no more
/// than the period. Round k + 1 starts at cost + k × (period − left), in the earlier row's period k + 1 as
/// long as the cost exceeds k × left. So there are as many rounds as periods begun in the time, and one more.
const ONE_EARLIER: [[u32; 3]; 14] = [
    [2, 1, 1],
    [2, 1, 2],
    [3, 1, 3],
    [5, 1, 5],
    [7, 2, 7],
    [10, 1, 10],
    [10, 3, 10],
    [32, 1, 32],
    [100, 1, 100],
    [100, 7, 93],
    [316, 1, 316],
    [999, 2, 998],
    [1000, 3, 1000],
    [1000, 1, 1000],
];

/// The time and the rounds of such a row.
fn behind_one([period, left, cost]: [u32; 3]) -> [u32; 2] {
    let begun = cost.div_ceil(left);
    [cost + begun * (period - left), begun + 1]
}

/// The longest deadline with no more of the earlier row's periods begun than in the time.
fn same_periods(period: u32, time: u32) -> u32 {
    time.next_multiple_of(period)
}

/// Tasks at their bound with one earlier row. The deadline is the time, and the longest that has the same
/// bound; and a microsecond too short.
fn tasks_behind_one() -> Vec<Plan> {
    let whole = [[0, 0, 1000, 1000], [3, 0, 1, 1]];
    let mut plans = Vec::new();
    for (place, numbers) in ONE_EARLIER.into_iter().enumerate() {
        let [period, left, cost] = numbers;
        let [time, rounds] = behind_one(numbers);
        let of = |deadline| {
            let vcpu = place as u32 % 2;
            let first = [vcpu, period, period, 0x1, period - left];
            let rows = [first, [vcpu, LONGEST, deadline, 0x2, cost]];
            plan(0, &whole, &rows)
        };
        for deadline in [time, same_periods(period, time)] {
            let plan = of(deadline);
            let last = *plan.found(4, 4).unwrap().last().unwrap();
            assert_eq!([last.time, last.rounds], [time, rounds]);
            assert_eq!(last_bound(&plan), rounds.into());
            plans.push(plan);
        }
        let late = of(time - 1);
        assert_eq!(late.found(4, 4), Err((22, 1)));
        plans.push(late);
    }
    plans
}

fn last_bound(plan: &Plan) -> u64 {
    let (search, _) = plan.searches().last().unwrap();
    search.bound()
}

/// The same of VCPUs: two at a time, on cores of their own and in turns, with others behind them that
/// supply a task each.
fn vcpus_behind_one() -> Vec<Plan> {
    let mut plans = Vec::new();
    for (place, numbers) in ONE_EARLIER.into_iter().enumerate() {
        let next = ONE_EARLIER[(place + 5) % ONE_EARLIER.len()];
        let [(first, one), (second, other)] = [numbers, next].map(|[period, left, cost]| {
            let [time, rounds] = behind_one([period, left, cost]);
            let deadline = match place % 3 {
                0 => time,
                _ => same_periods(period, time),
            };
            let rows = [[0, 0, period, period - left], [0, 0, deadline, cost]];
            (rows, rounds)
        });
        let mut rows = [first[0], second[0], first[1], second[1]].to_vec();
        for row in [1, 3] {
            rows[row][0] = 2;
        }
        rows.extend([[1, 0, 10, 10], [3, 0, 5, 3]]);
        let behind = [[4, 20, 20, 0x1, 1], [5, 40, 40, 0x2, 4]];
        let mut plan = plan(0, &rows, &behind);
        let found = plan.rounds(8).unwrap();
        assert_eq!(found[2..4], [one, other]);
        plans.push(plan.clone());
        // a microsecond too short
        let time = plan.times(8).unwrap()[3];
        vcpu_row(&mut plan, 3)[VCPU_PERIOD] = time - 1;
        assert_eq!(plan.found(8, 8), Err((21, 3)));
        plans.push(plan);
    }
    plans
}

/// Of the plans that are drawn, as many as are wanted.
fn drawn(
    random: &mut Random,
    count: usize,
    mut draw: impl FnMut(&mut Random) -> Option<Plan>,
) -> Vec<Plan> {
    let draws = (0..2_000_000).filter_map(|_| draw(random));
    let plans: Vec<Plan> = draws.take(count).collect();
    assert_eq!(plans.len(), count);
    plans
}

/// The plan with the last row's time as its deadline, where it has one and takes at least so many rounds,
/// as many as it may.
fn if_at_bound(mut plan: Plan, fewest: u32) -> Option<Plan> {
    let rows = plan.rows();
    let last = *plan.found(rows, rows).ok()?.last()?;
    let row = plan.tasks.len() / TASK_WORDS - 1;
    task_row(&mut plan, row)[DEADLINE] = last.time;
    let at_bound = last.rounds >= fewest && last_bound(&plan) == last.rounds.into();
    at_bound.then_some(plan)
}

/// Small numbers: an earlier row's period and what it asks for.
fn any_earlier(random: &mut Random) -> [u32; 2] {
    let period = 4 + random.below(90) as u32;
    [period, 1 + random.below(u64::from(period) / 2) as u32]
}

/// A task at its bound behind several, that each have a time, too.
fn behind_several(random: &mut Random, earlier: usize, supplied: [u32; 2]) -> Option<Plan> {
    let mut rows: Vec<[u32; 5]> = (0..earlier)
        .map(|row| {
            let [period, cost] = any_earlier(random);
            [0, period, period, 1 << row, cost]
        })
        .collect();
    let cost = 1 + random.below(30) as u32;
    rows.push([0, 500, 500, 0x8000, cost]);
    let [period, budget] = supplied;
    let plan = plan(0, &[[0, 0, period, budget]], &rows);
    if_at_bound(plan, 3 + earlier as u32)
}

/// The VCPUs of such a plan in place of its tasks: the last VCPU is at its bound. Those of another core stand
/// among them.
fn of_vcpus(random: &mut Random, from: &Plan) -> Plan {
    let core = random.below(3) as u32;
    let mut rows = Vec::new();
    for task in tasks(&from.tasks) {
        if random.below(2) == 0 && rows.len() < 8 {
            rows.push([core + 1, 0, 40, 1 + random.below(4) as u32]);
        }
        rows.push([core, 0, task.deadline, task.cost()]);
    }
    let name = rows.len() as u32 - 1;
    let plan = plan(0, &rows, &[[name, LONGEST, LONGEST, 0x10, 1]]);
    let (search, _) = plan.searches().nth(rows.len() - 1).unwrap();
    assert_eq!(u64::from(search.rounds().count), search.bound());
    plan
}

fn at_bound_behind_several(random: &mut Random) -> Vec<Plan> {
    let mut plans = Vec::new();
    for earlier in 2..=4 {
        for supplied in [[1, 1], [90, 90], [10, 9], [6, 4], [25, 20]] {
            let draw = |random: &mut Random| behind_several(random, earlier, supplied);
            let found = drawn(random, 2, draw);
            if supplied == [1, 1] {
                plans.extend(found.iter().map(|plan| of_vcpus(random, plan)));
            }
            plans.push(stretched(found[0].clone()));
            plans.extend(found);
        }
    }
    plans
}

/// Several VCPUs, some on one core, with several rows as a rule whose colours overlap, on supplies that
/// hardly suffice.
fn crowded(random: &mut Random) -> Option<Plan> {
    let count = random.pick(&[1, 2, 2, 3, 4]);
    let cores = 1 + random.below(CORES.into());
    let vcpus: Vec<[u32; 4]> = (0..count)
        .map(|_| {
            let period = 5 + random.below(60);
            let budget = 1 + random.below(period);
            let core = random.below(cores) as u32;
            [core, 0, period as u32, budget as u32]
        })
        .collect();
    let mut rows = Vec::new();
    for vcpu in 0..count {
        for _ in 0..random.below(6) {
            let set = random.pick(&[1, 2, 3, 4, 5, 6, 8, 12]) << (4 * vcpu);
            let period = 40 + random.below(400) as u32;
            let cost = 1 + random.below(u64::from(period) / 4) as u32;
            rows.push([vcpu, period, period, set, cost]);
        }
        if let Some(row) = rows.last_mut() {
            *row = [row[0], 20_000, 20_000, row[3], row[4]];
        }
    }
    let reload = random.pick(&[0, 1, 3, 10, 10, 10]);
    let plan = plan(reload, &vcpus, &rows);
    let rounds = plan.rounds(plan.rows()).ok()?;
    // many in one search, and not all of them in the last
    let many = rounds.iter().filter(|rounds| **rounds > 6).count();
    (many >= 2).then_some(plan)
}

/// The same with the last row a microsecond late.
fn late(plan: &Plan) -> Option<Plan> {
    let mut plan = plan.clone();
    let row = plan.tasks.len() / TASK_WORDS - 1;
    let time = *plan.times(plan.rows()).ok()?.last()?;
    task_row(&mut plan, row)[DEADLINE] = time.checked_sub(1).filter(|time| *time > 0)?;
    Some(plan)
}

pub fn plans(random: &mut Random) -> Vec<Plan> {
    let mut plans = tasks_behind_one();
    plans.extend(vcpus_behind_one());
    plans.extend(at_bound_behind_several(random));
    let crowds = drawn(random, 80, crowded);
    plans.extend(crowds.iter().step_by(7).filter_map(late));
    plans.extend(crowds);
    plans
}

/// The rounds of all rows of an admitted plan by some reading, from what is found of them.
type Reading = fn(&Plan, &[Found]) -> Vec<u32>;

fn searches(plan: &Plan) -> Vec<Search> {
    plan.searches().map(|(search, _)| search).collect()
}

fn rounds(found: &[Found]) -> Vec<u32> {
    found.iter().map(|row| row.rounds).collect()
}

/// The first microsecond with so much supply: one supplies one at most.
fn covering(search: &Search, need: u64) -> u64 {
    let mut t = 1;
    while search.supply(t) < need {
        t += need - search.supply(t);
    }
    t
}

/// The need with periods begun by some count of them.
fn need(search: &Search, begun: impl Fn(&Earlier) -> u64) -> u64 {
    let asked = search.earlier.iter().map(|row| begun(row) * row.charge);
    u64::from(search.own) + asked.sum::<u64>()
}

fn need_in(search: &Search, t: u64) -> u64 {
    need(search, |row| t.div_ceil(row.period))
}

/// Rounds from some start, each of which goes on from t to another number.
fn count(search: &Search, start: u64, next: impl Fn(u64) -> u64) -> u32 {
    let mut t = start;
    let mut count = 1;
    let deadline = u64::from(search.deadline);
    loop {
        let then = next(t);
        if then <= t || then > deadline {
            return count;
        }
        t = then;
        count += 1;
    }
}

fn count_from(search: &Search, start: u64) -> u32 {
    count(search, start, |t| covering(search, need_in(search, t)))
}

/// The searches of the tasks changed.
fn with_tasks(plan: &Plan, change: impl Fn(usize) -> Search) -> Vec<u32> {
    let vcpus = plan.vcpus.len() / VCPU_WORDS;
    let all = searches(plan).into_iter().enumerate();
    all.map(|(place, search)| match place.checked_sub(vcpus) {
        None => count_from(&search, 1),
        Some(row) => count_from(&change(row), 1),
    })
    .collect()
}

fn pair_by_pair(plan: &Plan, row: usize) -> Search {
    let all = tasks(&plan.tasks);
    let name = all[row].vcpu;
    let first = all.iter().take_while(|other| other.vcpu != name).count();
    let vcpu = vcpus(&plan.vcpus)[name as usize];
    let own = part(&plan.tasks, name);
    let mut search = Search::of_task(&vcpu, plan.reload, own, row - first);
    for (earlier, other) in search.earlier.iter_mut().zip(&all[first..]) {
        let both = (other.set & all[row].set).count_ones();
        earlier.charge = u64::from(other.cost()) + u64::from(plan.reload) * u64::from(both);
    }
    search
}

/// Readings of document 02, No. 9, that are wrong, and what a program might write in place of rounds.
const WRONG: [(&str, Reading); 17] = [
    ("the last round does not count", |_, found| {
        found.iter().map(|row| row.rounds - 1).collect()
    }),
    ("a round more", |_, found| {
        found.iter().map(|row| row.rounds + 1).collect()
    }),
    ("of the row before", |_, found| {
        let mut rounds = rounds(found);
        rounds.rotate_right(1);
        rounds
    }),
    ("of the row behind", |_, found| {
        let mut rounds = rounds(found);
        rounds.rotate_left(1);
        rounds
    }),
    ("tasks before VCPUs", |plan, found| {
        let mut rounds = rounds(found);
        rounds.rotate_left(plan.vcpus.len() / VCPU_WORDS);
        rounds
    }),
    ("added up from row to row", |_, found| {
        let add = |sum: &mut u32, row: &Found| {
            *sum += row.rounds;
            Some(*sum)
        };
        found.iter().scan(0, add).collect()
    }),
    ("over the whole task list", |plan, _| {
        with_tasks(plan, |row| {
            let vcpu = vcpus(&plan.vcpus)[tasks(&plan.tasks)[row].vcpu as usize];
            Search::of_task(&vcpu, plan.reload, &plan.tasks, row)
        })
    }),
    ("over the VCPUs of all cores", |plan, _| {
        let mut all = vcpus(&plan.vcpus);
        all.iter_mut().for_each(|vcpu| vcpu.core = 0);
        let of_vcpus = (0..all.len()).map(|row| Search::of_vcpu(&all, row));
        let of_tasks = searches(plan).into_iter().skip(all.len());
        let all = of_vcpus.chain(of_tasks);
        all.map(|search| count_from(&search, 1)).collect()
    }),
    ("periods begun rounded down", |plan, _| {
        let of = |search: &Search| {
            count(search, 1, |t| {
                covering(search, need(search, |row| t / row.period))
            })
        };
        searches(plan).iter().map(of).collect()
    }),
    ("from 0", |plan, _| {
        let all = searches(plan);
        all.iter().map(|search| count_from(search, 0)).collect()
    }),
    ("from the row's own cost", |plan, _| {
        let of = |search: &Search| count_from(search, search.own.into());
        searches(plan).iter().map(of).collect()
    }),
    ("from the time of the row before", |plan, found| {
        let times = found.iter().map(|row| row.time);
        let starts = [1].into_iter().chain(times);
        let all = searches(plan).into_iter().zip(starts);
        all.map(|(search, start)| count_from(&search, start.into()))
            .collect()
    }),
    ("on by what is missing", |plan, _| {
        let of = |search: &Search| {
            count(search, 1, |t| {
                t + need_in(search, t).saturating_sub(search.supply(t))
            })
        };
        searches(plan).iter().map(of).collect()
    }),
    ("under full supply", |plan, _| {
        let of = |mut search: Search| {
            search.resource = None;
            count_from(&search, 1)
        };
        searches(plan).into_iter().map(of).collect()
    }),
    ("reload pair by pair", |plan, _| {
        with_tasks(plan, |row| pair_by_pair(plan, row))
    }),
    ("every microsecond", |_, found| {
        found.iter().map(|row| row.time).collect()
    }),
    ("the bound", |plan, _| {
        let all = searches(plan).into_iter();
        all.map(|search| search.bound() as u32).collect()
    }),
];

/// Of so many admitted plans each wrong reading must give other rounds, and of so many searches each kind
/// must be at its bound.
const FEWEST: usize = 30;

/// Each wrong reading gives other rounds for enough of the plans.
pub fn assert_told_apart(plans: &[Plan]) {
    for (name, count) in told_apart(plans) {
        assert!(count >= FEWEST, "{name}: only {count} plans differ");
    }
    for (name, count) in at_bound(plans) {
        assert!(count >= FEWEST, "{name}: only {count} at their bound");
    }
}

fn told_apart(plans: &[Plan]) -> Vec<(&'static str, usize)> {
    let admitted: Vec<(&Plan, Vec<Found>)> = plans
        .iter()
        .filter_map(|plan| Some((plan, plan.found(plan.rows(), plan.rows()).ok()?)))
        .collect();
    let count = |reading: Reading| {
        let differs = |(plan, found): &&(&Plan, Vec<Found>)| reading(plan, found) != rounds(found);
        admitted.iter().filter(differs).count()
    };
    WRONG.map(|(name, reading)| (name, count(reading))).to_vec()
}

/// How many searches of each kind, of those with an earlier row that arrives again, take all the rounds that
/// they may.
fn at_bound(plans: &[Plan]) -> Vec<(&'static str, usize)> {
    type Kind = fn(&Search) -> bool;
    let arrives_again = |search: &Search| {
        let deadline = search.deadline.into();
        let periods = search.earlier.iter().filter(|row| row.period < deadline);
        periods.count()
    };
    let mut found: Vec<Search> = plans.iter().flat_map(searches).collect();
    found.retain(|search| {
        let rounds = search.rounds();
        arrives_again(search) > 0 && u64::from(rounds.count) == search.bound()
    });
    let kinds: [(&str, Kind); 4] = [
        ("VCPUs", |search| search.resource.is_none()),
        (
            "tasks under full supply",
            |search| matches!(search.resource, Some([period, budget]) if period == budget),
        ),
        (
            "tasks under a supply with gaps",
            |search| matches!(search.resource, Some([period, budget]) if period > budget),
        ),
        ("any", |_| true),
    ];
    let mut counts: Vec<(&str, usize)> = kinds
        .map(|(name, kind)| (name, found.iter().filter(|search| kind(search)).count()))
        .to_vec();
    found.retain(|search| arrives_again(search) > 1);
    counts.push(("behind several rows", found.len()));
    counts
}

#[cfg(test)]
mod tests {
    use super::*;

    /// By the right reading the helper's rounds are the model's, so that it is the reading that makes others.
    #[test]
    fn the_right_reading_gives_the_model_s_rounds() {
        for plan in plans(&mut Random::new(1)) {
            let all = searches(&plan);
            let counts: Vec<u32> = all.iter().map(|search| search.rounds().count).collect();
            let vcpus = plan.vcpus.len() / VCPU_WORDS;
            assert_eq!(with_tasks(&plan, |row| all[vcpus + row].clone()), counts);
        }
    }

    /// The search of document 02's bound that is worked out in `plans`, and a shorter one: behind a row of
    /// period 7 that leaves 2 a cost of 7 is done in 7 + 4 × 5, after rounds from 1, 12, 17, 22 and 27.
    #[test]
    fn behind_one_row() {
        assert_eq!(behind_one([1000, 1, 1000]), [LONGEST, 1001]);
        assert_eq!(behind_one([7, 2, 7]), [27, 5]);
        assert_eq!(same_periods(7, 27), 28);
    }
}
