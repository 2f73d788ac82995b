//! Random plans that are admitted, and faults put into them, for the vectors. The terms are those of
//! document 01, "Plans", and the faults those of refusals 17 to 22.

use crate::model::cache::colours;
use crate::model::frames::{unfit, Board, DOMAINS, FRAMES};
use crate::model::plans::{
    part, task_time, tasks, vcpu_time, vcpus, Plan, Vcpu, CORES, LONGEST, RELOAD, TASKS,
    TASK_WORDS, VCPUS, VCPU_WORDS,
};
use crate::random::boards::{accepted, part_of};
use crate::random::Random;

pub const PERIOD: usize = 1;
pub const DEADLINE: usize = 2;
pub const COLOUR_SET: usize = 3;
pub const COSTS: usize = 4;
pub const VCPU_PERIOD: usize = 2;
pub const VCPU_BUDGET: usize = 3;

/// A plan of that many VCPUs and task rows in which each has a time.
pub fn admitted(random: &mut Random, vcpu_count: usize, task_count: usize) -> Plan {
    first_admitted(random, vcpu_count, task_count, any_board)
}

/// An admitted plan with as many domains, VCPUs and tasks as there may be.
pub fn largest(random: &mut Random) -> Plan {
    first_admitted(random, VCPUS, TASKS, |random| {
        accepted(random, 16, FRAMES, DOMAINS as u32)
    })
}

fn first_admitted(
    random: &mut Random,
    vcpu_count: usize,
    task_count: usize,
    board: impl Fn(&mut Random) -> Board,
) -> Plan {
    // a draw may leave a row without a time, whatever its cost
    for _ in 0..1000 {
        let board = board(random);
        if let Some(plan) = draw(random, board, vcpu_count, task_count) {
            return plan;
        }
    }
    panic!("no draw of {vcpu_count} VCPUs and {task_count} tasks is admitted");
}

fn any_board(random: &mut Random) -> Board {
    let n = random.pick(&[1, 2, 4, 8, 16, 16, 16]);
    let domains = 1 + random.below(n.min(8)) as u32;
    let frames = 1 + random.below(4096) as u32;
    let frames = random.pick(&[1, 64, 4096, frames, frames]);
    accepted(random, n as u32, frames, domains)
}

fn draw(random: &mut Random, board: Board, vcpu_count: usize, task_count: usize) -> Option<Plan> {
    let rows = any_vcpus(random, board.domains, vcpu_count, task_count);
    let sets = own_colours(random, &board, &rows);
    let holders: Vec<usize> = (0..vcpu_count).filter(|row| sets[*row] != 0).collect();
    let mut names: Vec<usize> = (0..task_count).map(|_| random.pick(&holders)).collect();
    names.sort();
    let small = random.below(1000) as u32;
    let large = random.below(u64::from(RELOAD) + 1) as u32;
    let words = |vcpu: &Vcpu| [vcpu.core, vcpu.domain, vcpu.period, vcpu.budget];
    let mut plan = Plan {
        board,
        reload: random.pick(&[0, 0, 1, 100, small, small, large, RELOAD]),
        vcpus: rows.iter().flat_map(words).collect(),
        tasks: Vec::new(),
    };
    for vcpu in &names {
        let rows = names.iter().filter(|name| *name == vcpu).count();
        let row = any_task(random, &plan, *vcpu, sets[*vcpu], rows)?;
        plan.tasks.extend(row);
    }
    Some(plan)
}

/// VCPUs that all have a time: those of a core have budgets that add up to no more than the shortest
/// period, and then some are raised as long as each still has a time.
fn any_vcpus(random: &mut Random, domains: u32, count: usize, task_count: usize) -> Vec<Vcpu> {
    let one_core = random.below(4) == 0;
    let core = random.below(CORES.into()) as u32;
    let mut rows: Vec<Vcpu> = (0..count)
        .map(|_| Vcpu {
            core: match one_core {
                true => core,
                false => random.below(CORES.into()) as u32,
            },
            domain: random.below(domains.into()) as u32,
            period: 1,
            budget: 1,
        })
        .collect();
    for core in 0..CORES {
        let own: Vec<usize> = (0..count).filter(|row| rows[*row].core == core).collect();
        // long periods only where few times have to be found
        let size = match task_count {
            0..10 => random.pick(&[10, 100, 1000, 2000, 2000, 10_000, 100_000]),
            _ => random.pick(&[10, 100, 100, 500, 1000, 2000]),
        };
        let shortest = own.len() as u64 + random.below(size);
        for row in &own {
            let period = shortest * (1 + random.below(3)) + random.below(shortest);
            let alone = [period, period, 1 + random.below(period)];
            let budget = match own.len() {
                1 => random.pick(&alone),
                others => 1 + random.below(shortest / others as u64),
            };
            rows[*row].period = period as u32;
            rows[*row].budget = budget as u32;
        }
        if shortest <= 3000 {
            for row in own {
                let before = rows[row].budget;
                let more = random.below(u64::from(rows[row].period) / 3 + 1) as u32;
                rows[row].budget = rows[row].period.min(before + more);
                if (0..count).any(|other| vcpu_time(&rows, other).is_none()) {
                    rows[row].budget = before;
                }
            }
        }
    }
    rows
}

/// For each VCPU colours of its domain's grant that no other VCPU has; none where the grant is too
/// small for all.
fn own_colours(random: &mut Random, board: &Board, rows: &[Vcpu]) -> Vec<u32> {
    let mut sets = vec![0; rows.len()];
    for domain in 0..board.domains {
        let mut own: Vec<usize> = (0..rows.len())
            .filter(|row| rows[*row].domain == domain)
            .collect();
        let mut granted = colours(board.grants[domain as usize]);
        random.shuffle(&mut own);
        random.shuffle(&mut granted);
        if own.is_empty() {
            continue;
        }
        for (place, colour) in granted.into_iter().enumerate() {
            let row = match own.get(place) {
                Some(row) => *row,
                None => random.pick(&own),
            };
            sets[row] |= 1 << colour;
        }
    }
    sets
}

/// Sixteen costs of which the one for so many colours is given; equal ones now and then.
fn any_costs(random: &mut Random, held: usize, cost: u32) -> [u32; 16] {
    let mut costs = [cost; 16];
    if random.below(5) == 0 {
        return costs;
    }
    for place in (0..held - 1).rev() {
        let next = costs[place + 1];
        let more = random.below(u64::from(next) / 2 + 3) as u32;
        costs[place] = LONGEST.min(next + more);
    }
    for place in held..16 {
        let before = costs[place - 1];
        costs[place] = before - random.below(before.into()) as u32 / 3;
    }
    costs
}

/// A row behind the plan's other rows, with a time; its deadline is often the time or the period. `rows`
/// is how many the VCPU will have.
fn any_task(
    random: &mut Random,
    plan: &Plan,
    vcpu: usize,
    own: u32,
    rows: usize,
) -> Option<Vec<u32>> {
    let name = vcpu as u32;
    let vcpu = vcpus(&plan.vcpus)[vcpu];
    let part_set = part_of(random, own);
    let set = random.pick(&[own, part_set, part_set]);
    let supplied = u64::from(vcpu.period);
    let period = supplied * (1 + random.below(9)) + random.below(supplied);
    let period = period.min(LONGEST.into());
    let share = period * u64::from(vcpu.budget) / supplied / rows as u64;
    let cost = 1 + random.below(share.max(1)) as u32;
    let less = 1 + cost / 8;
    let longer = (20 * period).min(LONGEST.into()) as u32;
    let period = period as u32;
    for (period, cost) in [(period, cost), (period, less), (longer, 1)] {
        let mut row = vec![name, period, period, set];
        row.extend(any_costs(random, set.count_ones() as usize, cost));
        let rows = [part(&plan.tasks, name), &row].concat();
        let place = rows.len() / TASK_WORDS - 1;
        if let Some(time) = task_time(&vcpu, plan.reload, &rows, place) {
            let later = time + random.below(u64::from(period - time) + 1) as u32;
            row[DEADLINE] = random.pick(&[time, later, period]);
            return Some(row);
        }
    }
    None
}

pub fn vcpu_row(plan: &mut Plan, row: usize) -> &mut [u32] {
    &mut plan.vcpus[VCPU_WORDS * row..][..VCPU_WORDS]
}

pub fn task_row(plan: &mut Plan, row: usize) -> &mut [u32] {
    &mut plan.tasks[TASK_WORDS * row..][..TASK_WORDS]
}

/// Makes the plan fail at a number and row of 17 to 22, without a failure that is tested before. The
/// answer is whether the plan has a way to.
pub fn spoil_row(random: &mut Random, plan: &mut Plan, number: u32, row: usize) -> bool {
    match number {
        17 => spoil_vcpu(random, plan, row),
        18 => spoil_task(random, plan, row),
        19 => spoil_order(random, plan, row),
        20 => spoil_colours(random, plan, row),
        21 => spoil_vcpu_time(plan, row),
        _ => spoil_task_time(random, plan, row),
    }
}

fn spoil_vcpu(random: &mut Random, plan: &mut Plan, row: usize) -> bool {
    let domains = plan.board.domains;
    let words = vcpu_row(plan, row);
    let over = words[VCPU_PERIOD] + 1;
    let huge = random.pick(&[LONGEST + 1, 1 << 31, u32::MAX]);
    let field = random.below(4) as usize;
    words[field] = match field {
        0 => random.pick(&[CORES, CORES + 1, 256, 1 << 16, huge]),
        1 => random.pick(&[domains, domains + 1, 8, 256, 1 << 16, huge]),
        VCPU_PERIOD => random.pick(&[0, LONGEST + 1, huge]),
        _ => random.pick(&[0, over, over, huge]),
    };
    true
}

fn spoil_task(random: &mut Random, plan: &mut Plan, row: usize) -> bool {
    let count = (plan.vcpus.len() / VCPU_WORDS) as u32;
    let domain = vcpus(&plan.vcpus)[task_row(plan, row)[0] as usize].domain;
    let outside = 1 << random.pick(&colours(!plan.board.grants[domain as usize]));
    let words = task_row(plan, row);
    let huge = random.pick(&[LONGEST + 1, 1 << 31, u32::MAX]);
    let over = words[PERIOD] + 1;
    let place = COSTS + random.below(16) as usize;
    match random.below(12) {
        0 => words[0] = random.pick(&[count, count + 1, 16, 1 << 16, huge]),
        1 => words[PERIOD] = random.pick(&[0, huge]),
        2 | 3 => words[DEADLINE] = random.pick(&[0, over, over, huge]),
        4 => words[COLOUR_SET] = 0,
        5 => words[COLOUR_SET] = outside,
        6 => words[COLOUR_SET] |= outside,
        7 => words[COSTS] = huge,
        8 => words[TASK_WORDS - 1] = 0,
        9 => words[place] = 0,
        _ if place > COSTS => words[place] = words[place - 1] + 1,
        _ => words[place..].fill(LONGEST + 1),
    }
    true
}

fn spoil_order(random: &mut Random, plan: &mut Plan, row: usize) -> bool {
    let before = match row {
        0 => 0,
        _ => task_row(plan, row - 1)[0],
    };
    if before == 0 {
        return false;
    }
    let lower = random.below(before.into()) as u32;
    let domain = vcpus(&plan.vcpus)[lower as usize].domain;
    let grant = plan.board.grants[domain as usize];
    let words = task_row(plan, row);
    words[0] = lower;
    if unfit(words[COLOUR_SET], grant) {
        words[COLOUR_SET] = part_of(random, grant);
    }
    true
}

/// A colour of the grant that no earlier row keeps goes to the row and to a later row of another VCPU of
/// the domain; where there is none, the last row becomes one.
fn spoil_colours(random: &mut Random, plan: &mut Plan, row: usize) -> bool {
    let rows = tasks(&plan.tasks);
    let vcpus = vcpus(&plan.vcpus);
    let last = rows.len() - 1;
    let own = rows[row].vcpu as usize;
    let domain = vcpus[own].domain;
    let foreign = |vcpu: &usize| *vcpu != own && vcpus[*vcpu].domain == domain;
    let others: Vec<usize> = (row + 1..rows.len())
        .filter(|other| foreign(&(rows[*other].vcpu as usize)))
        .collect();
    let names: Vec<usize> = (rows[last].vcpu as usize..vcpus.len())
        .filter(foreign)
        .collect();
    let alone = |colour: &u32| rows[..row].iter().any(|task| task.set == 1 << colour);
    let mut new = colours(plan.board.grants[domain as usize]);
    new.retain(|colour| !alone(colour));
    if new.is_empty() || row == last || others.is_empty() && names.is_empty() {
        return false;
    }
    let shared = 1 << random.pick(&new);
    for earlier in 0..row {
        task_row(plan, earlier)[COLOUR_SET] &= !shared;
    }
    task_row(plan, row)[COLOUR_SET] |= shared;
    if others.is_empty() {
        let words = task_row(plan, last);
        words[0] = random.pick(&names) as u32;
        words[COLOUR_SET] = shared;
    } else {
        task_row(plan, random.pick(&others))[COLOUR_SET] |= shared;
    }
    true
}

/// The VCPU's period becomes one less than its time.
fn spoil_vcpu_time(plan: &mut Plan, row: usize) -> bool {
    let vcpus = vcpus(&plan.vcpus);
    match vcpu_time(&vcpus, row) {
        Some(time) if time > vcpus[row].budget => {
            vcpu_row(plan, row)[VCPU_PERIOD] = time - 1;
            true
        }
        _ => false,
    }
}

/// The deadline becomes one less than the task's time, or the cost exceeds the deadline.
fn spoil_task_time(random: &mut Random, plan: &mut Plan, row: usize) -> bool {
    let rows = tasks(&plan.tasks);
    let task = rows[row];
    let vcpu = vcpus(&plan.vcpus)[task.vcpu as usize];
    let place = rows[..row].iter().filter(|t| t.vcpu == task.vcpu).count();
    let own = part(&plan.tasks, task.vcpu);
    let Some(time) = task_time(&vcpu, plan.reload, own, place) else {
        return false;
    };
    let words = task_row(plan, row);
    if task.deadline < LONGEST && random.below(4) == 0 {
        let more = random.below((LONGEST - task.deadline).into()) as u32;
        let cost = task.deadline + 1 + random.pick(&[0, more]);
        for word in &mut words[COSTS..][..task.set.count_ones() as usize] {
            *word = cost.max(*word);
        }
        return true;
    }
    // a deadline of 0 is refused before that
    if time == 1 {
        return false;
    }
    words[DEADLINE] = time - 1;
    true
}

/// An admitted plan with all its times multiplied, so that the longest period comes near its limit. Each
/// row's time is multiplied too.
pub fn stretched(mut plan: Plan) -> Plan {
    let of_vcpus = plan.vcpus.chunks_exact(VCPU_WORDS).map(|v| v[VCPU_PERIOD]);
    let of_tasks = plan.tasks.chunks_exact(TASK_WORDS).map(|t| t[PERIOD]);
    let factor = of_vcpus.chain(of_tasks).max().map_or(1, |p| LONGEST / p);
    // a lower reload makes no time later
    plan.reload = plan.reload.min(RELOAD / factor) * factor;
    for row in plan.vcpus.chunks_exact_mut(VCPU_WORDS) {
        row[VCPU_PERIOD] *= factor;
        row[VCPU_BUDGET] *= factor;
    }
    for row in plan.tasks.chunks_exact_mut(TASK_WORDS) {
        row[PERIOD] *= factor;
        row[DEADLINE] *= factor;
        // only costs for fewer colours than are held reach the limit
        for cost in &mut row[COSTS..] {
            *cost = cost.saturating_mul(factor).min(LONGEST);
        }
    }
    plan
}

#[cfg(test)]
mod tests {
    use super::*;

    #[test]
    fn stretched_plans_are_admitted() {
        let mut random = Random::new(1);
        for _ in 0..12 {
            let mut plan = admitted(&mut random, 2, 3);
            plan.reload = 0;
            let times = plan.times(5).unwrap();
            let long = stretched(plan.clone());
            let factor = long.vcpus[VCPU_PERIOD] / plan.vcpus[VCPU_PERIOD];
            let expected = times.iter().map(|time| time * factor).collect();
            assert_eq!(long.times(5), Ok(expected));
        }
    }
}
