//! Plans in which preemptions nest (document 02, No. 3): three and more rows on a VCPU whose colour sets
//! overlap in all the ways that can count. For many of them each wrong reading of the rule gives another
//! reply, which is seen here, so that the vectors cannot stop telling the readings apart.

use super::plans::lone_vcpu;
use crate::model::plans::{part, supply, tasks, vcpus, Plan, LONGEST, RELOAD, TASKS, VCPU_WORDS};
use crate::random::plans::{task_row, vcpu_row, DEADLINE, VCPU_BUDGET};
use crate::random::Random;

/// Everything about a plan of one VCPU but the colour sets: the rows are periods and costs. The costs are
/// of different sizes, so that it shows in a time which rows were charged.
struct Setting {
    reload: u32,
    supplied: [u32; 2],
    rows: [[u32; 2]; 6],
}

/// Each row arrives once in the others' times.
const ONCE: Setting = Setting {
    reload: 100,
    supplied: [10_000, 10_000],
    rows: [
        [100_000, 1],
        [100_000, 20],
        [100_000, 300],
        [100_000, 4000],
        [100_000, 5],
        [100_000, 60],
    ],
};

/// A supply with gaps, and two rows that arrive again and again.
const GAPS: Setting = Setting {
    reload: 100,
    supplied: [5000, 3000],
    rows: [
        [6000, 300],
        [13_000, 40],
        [100_000, 5000],
        [100_000, 6],
        [100_000, 700],
        [100_000, 80],
    ],
};

/// The least reload, and a first row that arrives often.
const LEAST: Setting = Setting {
    reload: 1,
    supplied: [10, 10],
    rows: [
        [20, 1],
        [1000, 2],
        [10_000, 30],
        [10_000, 4],
        [10_000, 5],
        [10_000, 6],
    ],
};

const MOST: Setting = Setting {
    reload: RELOAD,
    supplied: [LONGEST, LONGEST],
    rows: [
        [200_000, 1],
        [LONGEST, 20],
        [LONGEST, 300],
        [LONGEST, 4000],
        [LONGEST, 50_000],
        [LONGEST, 60],
    ],
};

fn plan(setting: &Setting, sets: &[u32]) -> Plan {
    let rows: Vec<[u32; 4]> = setting
        .rows
        .iter()
        .zip(sets)
        .map(|([period, cost], set)| [*period, *period, *set, *cost])
        .collect();
    lone_vcpu(0xFFFF, setting.reload, setting.supplied, &rows)
}

/// Every way in which three rows can hold two colours.
fn two_colours() -> Vec<Vec<u32>> {
    let sets = || 1..=3;
    sets()
        .flat_map(|a| sets().flat_map(move |b| sets().map(move |c| vec![a, b, c])))
        .collect()
}

/// Every way in which three rows can hold three colours, whichever of these is which: a way says for each
/// colour which rows hold it, and stands here once for all orders.
fn three_colours(colours: [u32; 3]) -> Vec<Vec<u32>> {
    let mut ways = Vec::new();
    for first in 1..8 {
        for second in first..8 {
            for third in second..8 {
                let held = |row: u32| {
                    let holders = [first, second, third].into_iter().zip(colours);
                    let own = holders.filter(|(rows, _)| rows >> row & 1 == 1);
                    own.map(|(_, colour)| 1u32 << colour).sum()
                };
                ways.push((0..3).map(held).collect());
            }
        }
    }
    ways.retain(|sets: &Vec<u32>| !sets.contains(&0));
    ways
}

/// Four to six rows.
fn longer() -> Vec<Vec<u32>> {
    let chain = |rows: u32| (0..rows).map(|row| 0x3 << row).collect();
    let growing = |rows: u32| (1..=rows).map(|row| (1 << row) - 1).collect();
    let shrinking = |rows: u32| (1..=rows).rev().map(|row| (1 << row) - 1).collect();
    let apart = |rows: u32| (0..rows).map(|row| 1 << row).collect();
    let mut lists = Vec::new();
    for rows in 4..=6 {
        lists.extend([
            chain(rows),
            growing(rows),
            shrinking(rows),
            apart(rows),
            vec![0x5; rows as usize],
        ]);
    }
    // a colour that skips rows, at the front, in the middle and at the end
    lists.extend([
        vec![0x1, 0x1, 0x2, 0x4],
        vec![0x1, 0x2, 0x1, 0x4],
        vec![0x1, 0x2, 0x4, 0x1],
        vec![0x1, 0x2, 0x2, 0x4],
        vec![0x1, 0x2, 0x4, 0x2],
        vec![0x1, 0x1, 0x2, 0x4, 0x8],
        vec![0x1, 0x2, 0x4, 0x1, 0x8],
        vec![0x1, 0x2, 0x4, 0x8, 0x1],
        vec![0x1, 0x2, 0x4, 0x2, 0x8],
        // two that cross, and one inside the other
        vec![0x1, 0x2, 0x1, 0x2, 0x4],
        vec![0x1, 0x2, 0x2, 0x1, 0x4],
        // the same colour in several rows between
        vec![0x1, 0x1, 0x1, 0x1, 0x2],
        vec![0x3, 0x1, 0x2, 0x1, 0x4],
        // each row between has another colour of the first
        vec![0x1F, 0x1, 0x2, 0x4, 0x20],
        vec![0x1F, 0x21, 0x22, 0x24, 0x20],
        // sets that grow and shrink again, and the reverse
        vec![0x1, 0x3, 0x7, 0x3, 0x1],
        vec![0x7, 0x3, 0x1, 0x3, 0x7],
        vec![0x8, 0x7, 0x3, 0x1, 0x8, 0x6],
    ]);
    lists
}

/// A set of few colours or of many.
fn any_set(random: &mut Random, many: bool) -> u32 {
    let few = random.word() & random.word() & random.word();
    match (many, few & 0xFFFF) {
        (true, _) => (random.word() | 1) & 0xFFFF,
        (false, 0) => 1 << random.below(16),
        (false, set) => set,
    }
}

/// Up to 32 rows on one VCPU with sets of any of sixteen colours.
fn crowd(random: &mut Random, rows: usize) -> Plan {
    let settings = [
        (1, [20, 20], 60),
        (1, [20, 12], 90),
        (100, [10_000, 10_000], 10_000),
        (100, [5000, 3000], 12_000),
        (RELOAD, [LONGEST, LONGEST], LONGEST),
        (RELOAD, [10_000, 9000], LONGEST),
    ];
    let (reload, supplied, shortest) = random.pick(&settings);
    let many = reload < RELOAD && random.below(2) == 0;
    let rows: Vec<[u32; 4]> = (0..rows)
        .map(|row| {
            let period = match row {
                0 => shortest,
                1 => LONGEST.min(7 * shortest + 1),
                _ => LONGEST,
            };
            let cost = 1 + random.below(20) as u32;
            [period, period, any_set(random, many), cost]
        })
        .collect();
    lone_vcpu(0xFFFF, reload, supplied, &rows)
}

/// The rows of the second plan behind those of the first, on VCPUs of their own, with colours of their own
/// and on that core; a VCPU without rows stands between the two. All sets have colours below 8.
fn joined(mut plan: Plan, second: &Plan, core: u32) -> Plan {
    let idle = [3, 0, 100, 1];
    plan.vcpus.extend(idle);
    plan.vcpus.extend(&second.vcpus);
    vcpu_row(&mut plan, 2)[0] = core;
    for mut task in tasks(&second.tasks) {
        task.vcpu = 2;
        task.set <<= 8;
        plan.tasks
            .extend([task.vcpu, task.period, task.deadline, task.set]);
        plan.tasks.extend(task.costs);
    }
    plan
}

/// Two VCPUs, each with rows that nest.
fn parts(random: &mut Random) -> Vec<Plan> {
    let mut ways = three_colours([0, 3, 7]);
    ways.extend(longer());
    let mut plans = Vec::new();
    for place in 0..36 {
        let setting = [&ONCE, &GAPS][place % 2];
        let [first, second] = [0; 2].map(|_| {
            let sets = &ways[random.below(ways.len() as u64) as usize];
            plan(setting, sets)
        });
        let mut both = joined(first, &second, (place % 3) as u32);
        // on one core they share it
        if place % 3 == 0 {
            for row in [0, 2] {
                let words = vcpu_row(&mut both, row);
                words[VCPU_BUDGET] = words[VCPU_BUDGET].min(words[2] / 2);
            }
        }
        plans.push(both);
    }
    plans
}

/// Deadlines equal to the times, and for one of the rows behind the first a microsecond less.
fn just_in_time(plan: &Plan, choice: usize) -> [Plan; 2] {
    let mut exact = plan.clone();
    let times = task_times(plan).unwrap();
    for (row, time) in times.iter().enumerate() {
        task_row(&mut exact, row)[DEADLINE] = *time;
    }
    // a deadline of 0 would be refused before
    let rows: Vec<usize> = (1..times.len()).filter(|row| times[*row] > 1).collect();
    let row = rows[choice % rows.len()];
    assert_eq!(task_times(&exact), Ok(times));
    let mut late = exact.clone();
    task_row(&mut late, row)[DEADLINE] -= 1;
    assert_eq!(late.times(late.rows()), Err((22, row as u32)));
    [exact, late]
}

pub fn plans(random: &mut Random) -> Vec<Plan> {
    let mut plans = Vec::new();
    for sets in two_colours() {
        plans.extend([&ONCE, &GAPS].map(|setting| plan(setting, &sets)));
    }
    let settings = [&ONCE, &GAPS, &LEAST, &MOST];
    for (place, sets) in three_colours([0, 7, 15]).iter().enumerate() {
        plans.push(plan(settings[place % 4], sets));
    }
    for (place, sets) in longer().iter().enumerate() {
        let high: Vec<u32> = sets.iter().map(|set| set << 9).collect();
        plans.push(plan(settings[place % 4], sets));
        plans.push(plan(settings[(place + 1) % 4], &high));
        plans.push(plan(settings[(place + 2) % 4], sets));
    }
    plans.extend(parts(random));
    // what stands so far is admitted
    for (place, plan) in plans.clone().iter().enumerate().step_by(7) {
        plans.extend(just_in_time(plan, place));
    }
    for place in 0..30 {
        let rows = match place % 3 {
            0 => TASKS,
            _ => 3 + random.below(30) as usize,
        };
        plans.push(crowd(random, rows));
    }
    plans
}

/// Each wrong reading of the rule gives another reply for enough of the plans.
pub fn assert_told_apart(plans: &[Plan]) {
    let right: Vec<_> = plans.iter().map(task_times).collect();
    for (name, rule) in WRONG {
        let replies = plans.iter().map(|plan| times_by(plan, rule));
        let count = replies.zip(&right).filter(|(by, of)| by != *of).count();
        assert!(count >= FEWEST, "{name}: only {count} replies differ");
    }
}

/// The times of the task rows, or the row that has none.
fn task_times(plan: &Plan) -> Result<Vec<u32>, u32> {
    let vcpus = plan.vcpus.len() / VCPU_WORDS;
    match plan.times(plan.rows()) {
        Ok(times) => Ok(times[vcpus..].to_vec()),
        Err((number, row)) => {
            assert_eq!(number, 22);
            Err(row)
        }
    }
}

/// How many colours of row j are charged to the row at a place, by the sets of their part.
type Rule = fn(sets: &[u32], j: usize, place: usize) -> u32;

fn union(sets: &[u32]) -> u32 {
    sets.iter().fold(0, |union, set| union | set)
}

/// Readings of document 02, No. 3, that are wrong.
const WRONG: [(&str, Rule); 8] = [
    ("pair by pair", |sets, j, place| {
        (sets[j] & sets[place]).count_ones()
    }),
    ("without the task in question", |sets, j, place| {
        (sets[j] & union(&sets[j + 1..place])).count_ones()
    }),
    ("with j itself", |sets, j, _| sets[j].count_ones()),
    ("with rows before j", |sets, j, place| {
        let union = union(&sets[..j]) | union(&sets[j + 1..=place]);
        (sets[j] & union).count_ones()
    }),
    ("with rows behind", |sets, j, _| {
        (sets[j] & union(&sets[j + 1..])).count_ones()
    }),
    ("the next row alone", |sets, j, _| {
        (sets[j] & sets[j + 1]).count_ones()
    }),
    ("a colour once for each row", |sets, j, place| {
        let shared = |set: &u32| (sets[j] & set).count_ones();
        sets[j + 1..=place].iter().map(shared).sum()
    }),
    ("all colours of the union", |sets, j, place| {
        union(&sets[j + 1..=place]).count_ones()
    }),
];

/// Of so many plans each wrong reading must give another reply.
const FEWEST: usize = 100;

/// What the task rows' times would be by another rule.
fn times_by(plan: &Plan, rule: Rule) -> Result<Vec<u32>, u32> {
    let rows = tasks(&plan.tasks);
    let mut times = Vec::new();
    for (row, task) in rows.iter().enumerate() {
        let first = rows.iter().take_while(|other| other.vcpu != task.vcpu);
        let place = row - first.count();
        match time_by(plan, task.vcpu, place, rule) {
            Some(time) => times.push(time),
            None => return Err(row as u32),
        }
    }
    Ok(times)
}

fn time_by(plan: &Plan, vcpu: u32, place: usize, rule: Rule) -> Option<u32> {
    let own = tasks(part(&plan.tasks, vcpu));
    let vcpu = vcpus(&plan.vcpus)[vcpu as usize];
    let sets: Vec<u32> = own.iter().map(|task| task.set).collect();
    let need = |t: u64| {
        let asked = (0..place).map(|j| {
            let reload = u64::from(plan.reload) * u64::from(rule(&sets, j, place));
            t.div_ceil(own[j].period.into()) * (u64::from(own[j].cost()) + reload)
        });
        u64::from(own[place].cost()) + asked.sum::<u64>()
    };
    let mut t = 1;
    while t <= u64::from(own[place].deadline) {
        let missing = need(t).saturating_sub(supply(vcpu.period, vcpu.budget, t));
        if missing == 0 {
            return Some(t as u32);
        }
        // a microsecond supplies one at most
        t += missing;
    }
    None
}

#[cfg(test)]
mod tests {
    use super::*;

    /// By the right rule the helper's times are the model's, so that it is the rule that makes others.
    #[test]
    fn the_right_rule_gives_the_model_s_times() {
        let right: Rule = |sets, j, place| (sets[j] & union(&sets[j + 1..=place])).count_ones();
        for plan in plans(&mut Random::new(1)) {
            assert_eq!(times_by(&plan, right), task_times(&plan));
        }
    }

    /// For three rows and three colours: 84 ways to choose holders of each, less those with an empty row.
    #[test]
    fn ways_of_three_rows() {
        assert_eq!(two_colours().len(), 27);
        let ways = three_colours([0, 1, 2]);
        assert!(ways.contains(&vec![0x1, 0x2, 0x4]));
        assert!(ways.contains(&vec![0x7, 0x7, 0x7]));
        // a row is empty where each colour is held by the other two rows alone: 10 ways for each of three
        // rows, less 3 in which one row holds all
        assert_eq!(ways.len(), 84 - (3 * 10 - 3));
    }
}
