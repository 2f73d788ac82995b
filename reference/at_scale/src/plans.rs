//! Plans, sound and damaged, and parts of task lists. Most periods are small, since the model tries every
//! microsecond; a few plans have periods up to 1,000,000. The boards have any numbers for quotas.

use interface::Raw;
use reference::model::cache::colours;
use reference::model::frames::Board;
use reference::model::plans::{
    part, Plan, Search, Vcpu, CORES, LONGEST, RELOAD, TASK_WORDS, VCPU_WORDS,
};
use reference::model::reply::Reply;
use reference::random::boards::{accepted, part_of, spoil};
use reference::random::plans::{admitted, spoil_row};
use reference::random::Random;

use crate::lent::{Lent, LentBoard};
use crate::quotas;
use crate::tally::{unlike, Tally};

const GUARD: u32 = 0x5AA5_C33C;

/// For each VCPU colours of its domain's grant that no other has, perhaps none.
fn own_colours(random: &mut Random, board: &Board, rows: &[Vcpu]) -> Vec<u32> {
    let mut sets = vec![0; rows.len()];
    for domain in 0..board.domains {
        let own: Vec<usize> = (0..rows.len())
            .filter(|row| rows[*row].domain == domain)
            .collect();
        if own.is_empty() {
            continue;
        }
        for colour in colours(board.grants[domain as usize]) {
            sets[random.pick(&own)] |= 1 << colour;
        }
    }
    sets
}

/// VCPU rows with periods up to about the size, and budgets that as a rule fit on the core.
fn any_vcpus(random: &mut Random, domains: u32, count: u64, size: u64) -> Vec<Vcpu> {
    let low = random.pick(&[1, size / 2, size]);
    let share = random.pick(&[1, 2, 4]) * (1 + count / u64::from(CORES));
    (0..count)
        .map(|_| {
            let period = low + random.below(size - low + 1);
            let alone = count == 1 && random.below(2) == 0;
            Vcpu {
                core: random.below(CORES.into()) as u32,
                domain: random.below(domains.into()) as u32,
                period: period as u32,
                budget: match alone {
                    true => period as u32,
                    false => 1 + random.below((period / share).max(1)) as u32,
                },
            }
        })
        .collect()
}

/// A row of the VCPU, which has so many; as a rule its supply suffices.
fn any_task(random: &mut Random, name: usize, vcpu: &Vcpu, own: u32, rows: u64) -> Vec<u32> {
    let set = part_of(random, own);
    let supplied = u64::from(vcpu.period);
    let period = supplied * (2 + random.below(9)) + random.below(supplied);
    let period = period.min(LONGEST.into());
    let share = period * u64::from(vcpu.budget) / supplied / rows;
    let calm = random.pick(&[1, 2, 4, 8, 8]);
    let cost = 1 + random.below((share / calm).max(1)) as u32;
    let deadline = match random.below(10) {
        0 => 1 + random.below(period),
        1 | 2 => period - random.below(period / 4 + 1),
        _ => period,
    };
    let step = random.pick(&[0, 0, 0, 1, 2]);
    let mut row = vec![name as u32, period as u32, deadline as u32, set];
    row.extend((0..16).map(|place| LONGEST.min(cost + (15 - place) * step)));
    row
}

/// Rows for a board: so many VCPUs with periods up to about the size, and so many tasks on them.
fn filled(
    random: &mut Random,
    board: Board,
    [vcpus, tasks]: [u64; 2],
    size: u64,
    reload: u32,
) -> Plan {
    let rows = any_vcpus(random, board.domains, vcpus, size);
    let sets = own_colours(random, &board, &rows);
    let holders: Vec<usize> = (0..rows.len()).filter(|row| sets[*row] != 0).collect();
    let mut names: Vec<usize> = (0..tasks).map(|_| random.pick(&holders)).collect();
    names.sort();
    let mut tasks = Vec::new();
    for name in &names {
        let same = names.iter().filter(|other| *other == name).count();
        let own = sets[*name];
        tasks.extend(any_task(random, *name, &rows[*name], own, same as u64));
    }
    let words = |vcpu: &Vcpu| [vcpu.core, vcpu.domain, vcpu.period, vcpu.budget];
    Plan {
        board,
        reload,
        vcpus: rows.iter().flat_map(words).collect(),
        tasks,
    }
}

/// A plan that refuses nothing up to 20.
fn any_plan(random: &mut Random) -> Plan {
    let n = random.pick(&[1, 2, 4, 8, 16, 16, 16]);
    let domains = 1 + random.below(n.min(8)) as u32;
    let frames = 1 + random.below(4096) as u32;
    let board = accepted(random, n as u32, frames, domains);
    let large = random.below(2000) == 0;
    let (most_vcpus, most_tasks, size) = match large {
        true => (3, 3, random.pick(&[10_000, 100_000])),
        false => (
            random.pick(&[1, 1, 4, 16]),
            random.pick(&[1, 2, 4, 8, 32]),
            random.pick(&[4, 20, 60, 200]),
        ),
    };
    let counts = [most_vcpus, most_tasks].map(|most| 1 + random.below(most));
    let reload = random.pick(&[0, 0, 0, 0, 1, 1, 2, 20, RELOAD]);
    filled(random, board, counts, size, reload)
}

/// The same with several rows to a VCPU, sets that overlap and a low reload, so that many are admitted with
/// preemptions that nest.
fn nested_plan(random: &mut Random) -> Plan {
    let n = random.pick(&[2, 4, 8, 16]);
    let frames = 1 + random.below(4096) as u32;
    let board = accepted(random, n, frames, 1);
    let vcpus = random.pick(&[1, 1, 2]);
    let tasks = vcpus * 3 + random.below(6);
    let size = random.pick(&[60, 200, 400]);
    let reload = random.pick(&[1, 1, 2, 4]);
    filled(random, board, [vcpus, tasks], size, reload)
}

/// A row that leaves little of each of its periods, and one behind it, as VCPUs or as tasks: the search for
/// the second's time climbs from period to period and often takes all the rounds that it may. At times a
/// third stands before either, and seldom arrives.
fn climbing_plan(random: &mut Random) -> Plan {
    // the model tries every microsecond up to about the square of the period
    let period = match random.below(10_000) {
        0 => 1000,
        1..=30 => 100 + random.below(200) as u32,
        _ => 3 + random.below(50) as u32,
    };
    let left = random.pick(&[1, 1, 1, 2]);
    let cost = 1 + random.below(period.into()) as u32;
    // under full supply and without a third row, so many periods begin until the second is done
    let time = cost + cost.div_ceil(left) * (period - left);
    let limit = random.pick(&[time, time, time + period / 2, 4 * period]);
    let limit = limit.clamp(cost, LONGEST);
    let mut rows = vec![[period, period - left], [limit, cost]];
    if random.below(3) == 0 {
        rows.insert(random.below(2) as usize, [limit, 1]);
    }
    let board = accepted(random, 16, 64, 1);
    // all of the time, or all but a microsecond of some
    let whole = [1, 0, 60, random.pick(&[60, 60, 59])];
    let of_vcpus = random.below(3) == 0;
    let mut task = |[period, cost]: [u32; 2]| {
        let mut row = vec![0, period, period, part_of(random, board.grants[0])];
        row.extend([cost; 16]);
        row
    };
    let (vcpus, tasks) = match of_vcpus {
        true => {
            let behind = rows
                .iter()
                .flat_map(|[period, budget]| [2, 0, *period, *budget]);
            (whole.into_iter().chain(behind).collect(), task([60, 1]))
        }
        false => (whole.to_vec(), rows.into_iter().flat_map(task).collect()),
    };
    Plan {
        board,
        reload: 0,
        vcpus,
        tasks,
    }
}

/// A number near one of a plan, or any.
fn any_number(random: &mut Random, now: u32) -> u32 {
    match random.below(4) {
        0 => random.pick(&[0, 1, 2, 4, 16, 32, LONGEST, LONGEST + 1, u32::MAX]),
        1 => now.wrapping_add(random.pick(&[1, u32::MAX])),
        2 => random.any_size() as u32,
        _ => random.below(40) as u32,
    }
}

fn damage_word(random: &mut Random, list: &mut [u32]) {
    if !list.is_empty() {
        let place = random.below(list.len() as u64) as usize;
        list[place] = any_number(random, list[place]);
    }
}

fn damage_length(random: &mut Random, list: &mut Vec<u32>, row: usize) {
    match random.below(5) {
        0 => list.clear(),
        1 => list.truncate(random.below(list.len() as u64 + 1) as usize),
        2 => list.extend(vec![1; 1 + random.below(row as u64) as usize]),
        3 => list.resize(row * 33, 1),
        _ => list.resize(row * (1 + random.below(20) as usize), 1),
    }
}

/// The rows of two tasks change places, or one gets a colour of the other.
fn damage_rows(random: &mut Random, tasks: &mut [u32]) {
    let rows = (tasks.len() / TASK_WORDS) as u64;
    let first = random.below(rows.max(1)) as usize * TASK_WORDS;
    let second = random.below(rows.max(1)) as usize * TASK_WORDS;
    if first >= second {
        return;
    }
    let (front, back) = tasks.split_at_mut(second);
    match random.below(2) {
        0 => front[first..][..TASK_WORDS].swap_with_slice(&mut back[..TASK_WORDS]),
        _ => front[first + 3] |= part_of(random, back[3]),
    }
}

fn damage_board(random: &mut Random, board: &mut Board) {
    let row = random.below(board.domains.clamp(1, 8).into()) as u32;
    let grant = board.grants[row as usize];
    match random.below(6) {
        0 => board.colours = any_number(random, board.colours),
        1 => board.frames = random.pick(&[0, 4097, u32::MAX]),
        2 => board.domains = random.pick(&[0, 1, 2, 8, 9, u32::MAX]),
        3 => board.grants[(row as usize + 1) % 8] |= part_of(random, grant),
        4 if grant != u32::MAX && (1..=16).contains(&board.colours) => spoil(random, board, 5, row),
        _ if grant != u32::MAX => spoil(random, board, 7, row),
        _ => {}
    }
}

pub fn damage(random: &mut Random, plan: &mut Plan) {
    match random.below(12) {
        0 | 1 => damage_board(random, &mut plan.board),
        2 => plan.reload = random.pick(&[RELOAD + 1, RELOAD + 1, 1 << 16, u32::MAX]),
        3 => damage_length(random, &mut plan.vcpus, VCPU_WORDS),
        4 => damage_length(random, &mut plan.tasks, TASK_WORDS),
        5 | 6 => damage_word(random, &mut plan.vcpus),
        7 | 8 => damage_rows(random, &mut plan.tasks),
        _ => damage_word(random, &mut plan.tasks),
    }
}

/// A list before a call, in which each word has its place in it and the list's own mark.
fn marked(length: usize, mark: u32) -> Vec<u32> {
    (0..length).map(|place| place as u32 ^ mark).collect()
}

/// Admits the plan with lists of times and of rounds of those lengths.
fn compare(plan: &Plan, room: [usize; 2], tally: &mut Tally) {
    let board = LentBoard::new(&plan.board);
    let vcpus = Lent::new(&plan.vcpus, GUARD);
    let tasks = Lent::new(&plan.tasks, GUARD);
    let times_before = marked(room[0], 0xC3C3_0000);
    let rounds_before = marked(room[1], 0x3C3C_0000);
    let mut times = Lent::new(&times_before, GUARD);
    let mut rounds = Lent::new(&rounds_before, !GUARD);
    let found = interface::admit_plan(
        &board.board,
        plan.reload,
        vcpus.list(),
        tasks.list(),
        times.list_mut(),
        rounds.list_mut(),
    );
    let (mut expected_times, mut expected_rounds) = (times_before, rounds_before);
    let (number, row) = match plan.admit(&mut expected_times, &mut expected_rounds) {
        Reply::Answer(_) => (0, 0),
        Reply::Refused { number, row } => (number, row),
    };
    let values = [0; 2];
    let model = Raw {
        number,
        row,
        values,
    };
    let differences = [
        unlike("reply", found, model),
        board.difference(&plan.board),
        times.difference("times", &expected_times),
        rounds.difference("rounds", &expected_rounds),
        vcpus.difference("VCPUs", &plan.vcpus),
        tasks.difference("tasks", &plan.tasks),
    ];
    let differences = differences.into_iter().flatten();
    tally.count("plan", number, &(plan, room), differences);
    match number {
        0 => {
            count_rounds(plan, &expected_rounds, tally);
            quotas::count_admitted(&plan.board, tally);
        }
        16 => count_short(plan, room, tally),
        _ => {}
    }
}

/// Counts the rounds of an admitted plan.
fn count_rounds(plan: &Plan, rounds: &[u32], tally: &mut Tally) {
    let rounds = &rounds[..plan.rows()];
    for count in rounds {
        tally.rounds.most = tally.rounds.most.max(*count);
        tally.rounds.all += u64::from(*count);
    }
    tally.rounds.times += rounds.len() as u64;
    // where no earlier row arrives again it is two at most, whatever the search
    if rounds.iter().any(|count| *count > 2) {
        let at_bound = |((search, _), count): &((Search, _), &u32)| {
            **count > 2 && search.bound() == u64::from(**count)
        };
        let count = plan.searches().zip(rounds).filter(at_bound).count();
        tally.rounds.at_bound += count as u64;
    }
}

/// Counts a refusal for one of the two lists alone.
fn count_short(plan: &Plan, [times, rounds]: [usize; 2], tally: &mut Tally) {
    let other = |times, rounds| !matches!(plan.refused(times, rounds), Err((16, _)));
    let enough = plan.rows();
    tally.short.times += u64::from(other(enough, rounds));
    tally.short.rounds += u64::from(other(times, enough));
}

fn any_room(random: &mut Random, plan: &Plan) -> usize {
    let rows = plan.rows();
    let short = rows.saturating_sub(1 + random.below(3) as usize);
    match random.below(20) {
        0 => random.pick(&[short, short, 0]),
        1..=9 => rows + random.below(9) as usize,
        _ => rows,
    }
}

fn any_rooms(random: &mut Random, plan: &Plan) -> [usize; 2] {
    [0; 2].map(|_| any_room(random, plan))
}

/// A plan that the tool's own generator admits, now and then, or one of those above.
pub fn sound(random: &mut Random) -> Plan {
    let mut plan = match random.below(3000) {
        0 => {
            let [vcpus, tasks] = [4, 8].map(|most| 1 + random.below(most) as usize);
            admitted(random, vcpus, tasks)
        }
        1..=600 => nested_plan(random),
        601..=900 => climbing_plan(random),
        _ => any_plan(random),
    };
    plan.board.quotas = quotas::any(random);
    plan
}

/// A plan, the same with faults put in, and the same with a row at fault as document 01 lists them.
pub fn family(random: &mut Random, tally: &mut Tally) {
    let plan = sound(random);
    compare(&plan, any_rooms(random, &plan), tally);
    for _ in 0..3 {
        let mut damaged = plan.clone();
        for _ in 0..1 + random.below(2) {
            damage(random, &mut damaged);
        }
        compare(&damaged, any_rooms(random, &damaged), tally);
    }
    let number = 17 + random.below(6) as u32;
    let rows = match number {
        17 | 21 => plan.vcpus.len() / VCPU_WORDS,
        _ => plan.tasks.len() / TASK_WORDS,
    };
    let row = random.below(rows as u64) as usize;
    let mut spoilt = plan.clone();
    if spoil_row(random, &mut spoilt, number, row) {
        compare(&spoilt, [spoilt.rows(); 2], tally);
    }
}

/// The part of a VCPU in a list of any words and length.
pub fn parts(random: &mut Random, tally: &mut Tally) {
    let rows = random.pick(&[0, 1, 3, 8, 33]);
    let names = 1 + random.below(4);
    let mut list = Vec::new();
    for _ in 0..random.below(rows + 1) {
        let name = match random.below(8) {
            0 => random.pick(&[u32::MAX, 16, 1 << 16, 1 << 31]),
            _ => random.below(names) as u32,
        };
        list.extend([name; TASK_WORDS]);
    }
    list.extend(vec![random.below(names) as u32; random.below(20) as usize]);
    for vcpu in [0, 1, random.below(names) as u32, u32::MAX, random.word()] {
        let model = part(&list, vcpu);
        // `part` answers a part of the list itself
        let start = (model.as_ptr() as usize - list.as_ptr() as usize) / size_of::<u32>();
        let lent = Lent::new(&list, GUARD);
        let found = interface::part(lent.list(), vcpu);
        let differences = [
            unlike("part", found, (start, model.len())),
            lent.difference("list", &list),
        ];
        let differences = differences.into_iter().flatten();
        tally.count("part", 0, &(&list, vcpu), differences);
    }
}
