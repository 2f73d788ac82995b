//! Vectors of document 01, "Plans", with the reload of document 02, No. 3, and the rounds of No. 9, as
//! little-endian 32-bit words, the count of cases first. A case is an operation and its words: 0, admission
//! (board, reload, and each with its length in front the VCPU words and the task words, then the lengths of
//! the lists of times and of rounds); 1, the part of a VCPU; 2, the least supply.

use super::{hash, nested, plan_board_words, put, rounds, Set};
use crate::model::frames::{Board, DOMAINS, QUOTA};
use crate::model::plans::{
    part, supply, task_time, tasks, vcpus, Plan, Vcpu, LONGEST, RELOAD, TASKS, TASK_WORDS, VCPUS,
    VCPU_WORDS,
};
use crate::model::reply::Reply;
use crate::random::boards::{accepted, spoil};
use crate::random::plans::{
    admitted, spoil_row, task_row, vcpu_row, COLOUR_SET, COSTS, DEADLINE, VCPU_BUDGET, VCPU_PERIOD,
};
use crate::random::Random;

const MOST_VCPU_WORDS: usize = 80;
const MOST_TASK_WORDS: usize = 700;
const LONGEST_LIST: usize = 60;

pub fn set(seed: u64) -> Set {
    let mut set = Set::new("vectors_plans");
    set.want("admission", &[2, 3, 4, 15, 16]);
    // of two domains or rows that share a colour the lower is named, so never the last; the first row
    // has none before it; and the first VCPU of a core has its budget as its time
    for (number, rows) in [
        (5, 0..8),
        (6, 0..7),
        (7, 0..8),
        (17, 0..16),
        (18, 0..32),
        (19, 1..32),
        (20, 0..31),
        (21, 1..16),
        (22, 0..32),
    ] {
        set.want_rows("admission", number, rows);
    }
    set.want("part", &[]);
    set.want("supply", &[]);
    let mut random = Random::new(seed);
    let mut cases = examples();
    cases.extend(shapes(&mut random));
    cases.extend(edges(&mut random));
    cases.extend(two_vcpus());
    cases.extend(long_searches());
    cases.extend(large_needs());
    cases.extend(spoilt_boards(&mut random));
    cases.extend(lengths(&mut random));
    cases.extend(fields(&mut random));
    cases.extend(spoilt_rows(&mut random));
    cases.extend(parts(&mut random));
    cases.extend(supplies(&mut random));
    cases.extend(nested_sets(&mut random));
    cases.extend(two_lists(&mut random));
    cases.extend(many_rounds(&mut random));
    put(&mut set, cases.len());
    // numbers of their own, so that the lists of rounds change no plan
    let mut random = Random::new(seed + 9);
    for case in &cases {
        add(&mut set, &mut random, case);
    }
    set
}

enum Case {
    /// With a list of times of that length, and a list of rounds of any that leaves the reply as it is.
    Admission {
        plan: Plan,
        room: usize,
    },
    /// With lists of times and of rounds of those lengths.
    Lists {
        plan: Plan,
        times: usize,
        rounds: usize,
    },
    Part {
        vcpu: u32,
        tasks: Vec<u32>,
    },
    Supply {
        period: u32,
        budget: u32,
        t: u32,
    },
}

/// The list of times, or of rounds, before a call: no two words are alike.
fn lent_list(length: usize) -> Vec<u32> {
    (0..length as u32)
        .map(|i| i.wrapping_mul(1_000_003).wrapping_add(7))
        .collect()
}

fn put_list(set: &mut Set, words: &[u32]) {
    put(set, words.len());
    for word in words {
        put(set, *word);
    }
}

/// The length of a list of rounds that leaves the reply as it is: any, where something is at fault before
/// the lists are tested, or with them; else one that is long enough.
fn rounds_room(random: &mut Random, plan: &Plan, times: usize) -> usize {
    let rows = plan.rows();
    let short = rows.saturating_sub(random.pick(&[1, 1, 2]));
    let enough = any_room(random, rows);
    match plan.refused(times, LONGEST_LIST) {
        Err((..=16, _)) => random.pick(&[0, short, rows, enough]),
        _ => enough,
    }
}

/// Writes an admission and its reply: a hash of each list afterwards and, where the plan is admitted, the
/// times and the rounds of all rows.
fn add_admission(set: &mut Set, plan: &Plan, times: usize, rounds: usize) {
    assert!(plan.vcpus.len() <= MOST_VCPU_WORDS && plan.tasks.len() <= MOST_TASK_WORDS);
    assert!(times.max(rounds) <= LONGEST_LIST);
    put(set, 0);
    assert_eq!(plan.board.quotas, [QUOTA; DOMAINS]);
    for word in plan_board_words(&plan.board) {
        put(set, word);
    }
    put(set, plan.reload);
    put_list(set, &plan.vcpus);
    put_list(set, &plan.tasks);
    put(set, times);
    put(set, rounds);
    let [mut times, mut rounds] = [times, rounds].map(lent_list);
    let reply = plan.admit(&mut times, &mut rounds);
    set.reply("admission", reply);
    for (name, list) in [("times", times), ("rounds", rounds)] {
        set.line(&format!("list {}", hash(list.iter().copied())));
        if let Reply::Answer(_) = reply {
            let words = list[..plan.rows()].iter().map(|word| format!(" {word}"));
            set.line(&format!("{name}{}", words.collect::<String>()));
        }
    }
}

/// Writes a case and its reply.
fn add(set: &mut Set, random: &mut Random, case: &Case) {
    match case {
        Case::Admission { plan, room } => {
            let rounds = rounds_room(random, plan, *room);
            add_admission(set, plan, *room, rounds);
        }
        Case::Lists {
            plan,
            times,
            rounds,
        } => add_admission(set, plan, *times, *rounds),
        Case::Part { vcpu, tasks } => {
            assert!(tasks.len() <= MOST_TASK_WORDS);
            put(set, 1);
            put(set, *vcpu);
            put_list(set, tasks);
            let own = part(tasks, *vcpu);
            let text = format!("part {} {}", own.len(), hash(own.iter().copied()));
            set.reply("part", Reply::Answer(text));
        }
        Case::Supply { period, budget, t } => {
            for word in [2, *period, *budget, *t] {
                put(set, word);
            }
            let least = supply(*period, *budget, (*t).into());
            set.reply("supply", Reply::Answer(format!("supply {least}")));
        }
    }
}

/// One domain with all the given colours of 16, and one VCPU of core and domain 0; the rows are period,
/// deadline, colour set and one cost for any number of colours.
pub fn lone_vcpu(grant: u32, reload: u32, supplied: [u32; 2], rows: &[[u32; 4]]) -> Plan {
    let mut grants = [0; DOMAINS];
    grants[0] = grant;
    let mut tasks = Vec::new();
    for [period, deadline, set, cost] in rows {
        tasks.extend([0, *period, *deadline, *set]);
        tasks.extend([*cost; 16]);
    }
    Plan {
        board: Board {
            colours: 16,
            frames: 64,
            domains: 1,
            grants,
            active: grants,
            quotas: [QUOTA; DOMAINS],
        },
        reload,
        vcpus: [[0, 0], supplied].concat(),
        tasks,
    }
}

/// The examples of document 01 with the replies that are printed there, and that of document 02, No. 3.
fn examples() -> Vec<Case> {
    let mut cases = Vec::new();
    for (t, least) in [(4000, 0), (6999, 2999), (7000, 3000), (9000, 3000)] {
        assert_eq!(supply(5000, 3000, t.into()), least);
        let (period, budget) = (5000, 3000);
        cases.push(Case::Supply { period, budget, t });
    }
    let mut example = |plan: Plan, expected: Result<Vec<u32>, (u32, u32)>| {
        let room = plan.rows();
        assert_eq!(plan.times(room), expected);
        for room in [room, room + 2] {
            let plan = plan.clone();
            cases.push(Case::Admission { plan, room });
        }
    };
    let lone = |deadline| lone_vcpu(255, 0, [5000, 3000], &[[7000, deadline, 1, 3000]]);
    example(lone(7000), Ok(vec![3000, 7000]));
    example(lone(6999), Err((22, 0)));
    let whole = [10_000, 10_000];
    let three = |last| {
        let row = |set, cost| [10_000, 10_000, set, cost];
        lone_vcpu(255, 0, whole, &[row(1, 4000), row(2, 4000), row(4, last)])
    };
    example(three(3000), Err((22, 2)));
    example(three(2000), Ok(vec![10_000, 4000, 8000, 10_000]));
    let reloading = |reload, cost| {
        let rows = [[4000, 4000, 0x3, 1000], [10_000, 10_000, 0x6, cost]];
        lone_vcpu(255, reload, whole, &rows)
    };
    example(reloading(100, 2500), Ok(vec![10_000, 1000, 3600]));
    example(reloading(100, 3000), Ok(vec![10_000, 1000, 5200]));
    example(reloading(0, 3000), Ok(vec![10_000, 1000, 4000]));
    let rows = [0x1, 0x1, 0x2].map(|set| [10_000, 10_000, set, 1000]);
    let nested = lone_vcpu(255, 100, whole, &rows);
    example(nested, Ok(vec![10_000, 1000, 2100, 3100]));
    cases
}

/// Plans in which preemptions nest.
fn nested_sets(random: &mut Random) -> Vec<Case> {
    let mut cases = Vec::new();
    let plans = nested::plans(random);
    nested::assert_told_apart(&plans);
    for plan in plans {
        let room = any_room(random, plan.rows());
        cases.push(Case::Admission { plan, room });
    }
    cases
}

/// Plans about whose rounds a reader may err.
fn many_rounds(random: &mut Random) -> Vec<Case> {
    let plans = rounds::plans(random);
    rounds::assert_told_apart(&plans);
    let mut cases = Vec::new();
    for plan in plans {
        let [times, rounds] = [0; 2].map(|_| any_room(random, plan.rows()));
        cases.push(Case::Lists {
            plan,
            times,
            rounds,
        });
    }
    cases
}

/// Lists of times and of rounds of different lengths, each about the number of rows. If either is too short
/// it is 16, before 17 to 22 and after all up to 15.
fn two_lists(random: &mut Random) -> Vec<Case> {
    let mut cases = Vec::new();
    let mut add = |plan: &Plan, times: usize, rounds: usize, expected: Option<(u32, u32)>| {
        assert_eq!(plan.found(times, rounds).err(), expected);
        let plan = plan.clone();
        cases.push(Case::Lists {
            plan,
            times,
            rounds,
        });
    };
    let short = Some((16, 0));
    for (vcpus, tasks) in [(1, 1), (1, 2), (2, 1), (4, 6), (16, 1), (1, 32), (16, 32)] {
        let plan = admitted(random, vcpus, tasks);
        let rows = vcpus + tasks;
        for (one, other) in [(rows, rows + 1), (rows, LONGEST_LIST)] {
            add(&plan, one, other, None);
            add(&plan, other, one, None);
        }
        // as long as the rows of one kind, too
        let lengths = [rows - 1, 0, vcpus, tasks];
        // no more than one of large plans
        let lengths = match tasks {
            TASKS => &lengths[..1],
            _ => &lengths,
        };
        for enough in [rows, LONGEST_LIST] {
            for less in lengths {
                add(&plan, enough, *less, short);
                add(&plan, *less, enough, short);
            }
        }
        add(&plan, rows - 1, rows - 1, short);
    }
    for number in 17..=22 {
        let (plan, row) = loop {
            let mut plan = admitted(random, 3, 5);
            let row = 1 + random.below(2) as usize;
            if spoil_row(random, &mut plan, number, row) {
                break (plan, row as u32);
            }
        };
        for (times, rounds) in [(8, 8), (9, 8), (8, 9)] {
            add(&plan, times, rounds, Some((number, row)));
        }
        for (times, rounds) in [(8, 7), (7, 8), (9, 0)] {
            add(&plan, times, rounds, short);
        }
    }
    let mut plan = admitted(random, 2, 2);
    plan.reload = RELOAD + 1;
    add(&plan, 4, 3, Some((15, 0)));
    plan.board.frames = 0;
    add(&plan, 4, 3, Some((3, 0)));
    cases
}

/// A list of times, or of rounds, that is long enough, often just so.
fn any_room(random: &mut Random, rows: usize) -> usize {
    let more = 1 + random.below(12) as usize;
    LONGEST_LIST.min(rows + random.pick(&[0, 0, 0, 1, more, LONGEST_LIST]))
}

/// Admitted plans of 1 to 16 VCPUs and 1 to 32 tasks.
fn shapes(random: &mut Random) -> Vec<Case> {
    let mut cases = Vec::new();
    for i in 0..80 {
        // every number of VCPUs five times, every number of tasks at least twice
        let plan = admitted(random, 1 + i % VCPUS, 1 + i * 11 % TASKS);
        let room = any_room(random, plan.rows());
        assert!(plan.times(room).is_ok());
        cases.push(Case::Admission { plan, room });
    }
    cases
}

/// Deadlines equal to the times, and one of them a microsecond less; a VCPU's period equal to its time,
/// and a microsecond less.
fn edges(random: &mut Random) -> Vec<Case> {
    let mut cases = Vec::new();
    for i in 0..32 {
        let mut plan = admitted(random, 1 + i % VCPUS, 1 + i * 5 % 9);
        let room = any_room(random, plan.rows());
        let mut add = |plan: &Plan, expected: Option<(u32, u32)>| {
            assert_eq!(plan.times(room).err(), expected);
            let plan = plan.clone();
            cases.push(Case::Admission { plan, room });
        };
        let times = plan.times(room).unwrap();
        let count = plan.vcpus.len() / VCPU_WORDS;
        let (vcpu_times, task_times) = times.split_at(count);
        for (row, time) in task_times.iter().enumerate() {
            task_row(&mut plan, row)[DEADLINE] = *time;
        }
        assert_eq!(plan.times(room).as_ref(), Ok(&times));
        add(&plan, None);
        let row = random.below(task_times.len() as u64) as usize;
        if task_times[row] > 1 {
            let mut late = plan.clone();
            task_row(&mut late, row)[DEADLINE] -= 1;
            add(&late, Some((22, row as u32)));
        }
        let vcpus = vcpus(&plan.vcpus);
        let last_of_core = |row: &usize| {
            let rest = &vcpus[row + 1..];
            rest.iter().all(|other| other.core != vcpus[*row].core)
        };
        let waits = |row: &usize| vcpu_times[*row] > vcpus[*row].budget;
        // a shorter period would take time from the VCPUs behind, so one without any
        let rows: Vec<usize> = (0..count).filter(last_of_core).filter(waits).collect();
        if rows.is_empty() {
            continue;
        }
        let row = random.pick(&rows);
        vcpu_row(&mut plan, row)[VCPU_PERIOD] = vcpu_times[row];
        add(&plan, None);
        vcpu_row(&mut plan, row)[VCPU_PERIOD] -= 1;
        add(&plan, Some((21, row as u32)));
    }
    cases
}

/// Two VCPUs of one domain, on one core and on two, with a colour that both use, or together too much for
/// one core; the second with a row and without. Their colours are granted and not active.
fn two_vcpus() -> Vec<Case> {
    let mut cases = Vec::new();
    for core in [0, 1, 3] {
        for (set, budget, fault) in [(0xC, 5, 20), (0x8, 5, 0), (0x8, 6, 21)] {
            let mut plan = lone_vcpu(255, 0, [10, 5], &[[20, 20, 0x6, 5]]);
            plan.board.active[0] = 0x80;
            plan.vcpus.extend([core, 0, 10, budget]);
            let without_row = plan.clone();
            let mut row = lone_vcpu(255, 0, [10, 5], &[[20, 20, set, 5]]).tasks;
            row[0] = 1;
            plan.tasks.extend(row);
            for (plan, both) in [(plan, true), (without_row, false)] {
                let expected = match fault {
                    20 if both => Some((20, 0)),
                    21 if core == 0 => Some((21, 1)),
                    _ => None,
                };
                assert_eq!(plan.times(4).err(), expected);
                cases.push(Case::Admission { plan, room: 4 });
            }
        }
    }
    cases
}

/// Rows of cost 1 whose periods leave hardly any of the supply over, each with its time, or a little
/// more, as its period and deadline; the last has the longest deadline.
fn crowded(supplied: [u32; 2], more: u32) -> Plan {
    let row = [LONGEST, LONGEST, 1, 1];
    let mut plan = lone_vcpu(0xFFFF, 0, supplied, &[row]);
    let [period, budget] = supplied;
    let vcpu = Vcpu {
        core: 0,
        domain: 0,
        period,
        budget,
    };
    for place in 0..TASKS - 1 {
        let Some(time) = task_time(&vcpu, 0, &plan.tasks, place) else {
            break;
        };
        let period = LONGEST.min(time + more);
        task_row(&mut plan, place)[1..=DEADLINE].fill(period);
        let set = 1 << ((place + 1) % 16);
        let next = lone_vcpu(0xFFFF, 0, supplied, &[[LONGEST, LONGEST, set, 1]]);
        plan.tasks.extend(next.tasks);
    }
    plan
}

/// Searches in which the need rises with t almost as fast as the supply, or just as fast.
fn long_searches() -> Vec<Case> {
    let mut cases = Vec::new();
    let mut add = |plan: Plan| {
        let room = plan.rows();
        cases.push(Case::Admission { plan, room });
    };
    for (supplied, more) in [
        ([1, 1], 1),
        ([LONGEST, LONGEST], 2),
        ([LONGEST, LONGEST - 1], 0),
        ([LONGEST, LONGEST - 1], 1),
        ([100, 99], 0),
        ([10, 9], 0),
        ([2, 1], 0),
    ] {
        add(crowded(supplied, more));
    }
    let always = [1, 1, 1, 1];
    for last in [1, 2, LONGEST] {
        let plan = lone_vcpu(3, 0, [1, 1], &[always, [LONGEST, LONGEST, 2, last]]);
        assert_eq!(plan.times(3), Err((22, 1)));
        add(plan);
    }
    // periods 2, 4, 8 and so on leave one microsecond in 2^19
    let mut rows: Vec<[u32; 4]> = (1..20)
        .map(|i| [1 << i, 1 << i, 1 << (i % 16), 1])
        .collect();
    rows.push([LONGEST, LONGEST, 1, 1]);
    let plan = lone_vcpu(0xFFFF, 0, [1, 1], &rows);
    assert_eq!(plan.times(21).unwrap()[20], 1 << 19);
    add(plan);
    // the same of VCPUs, which leave one in 2^15
    let task = [LONGEST, LONGEST, 1, 1];
    for (budget, time) in [(30, Some(30 << 15)), (31, None)] {
        let mut plan = lone_vcpu(1, 0, [2, 1], &[task]);
        for i in 2..16 {
            plan.vcpus.extend([0, 0, 1 << i, 1]);
        }
        plan.vcpus.extend([0, 0, LONGEST, budget]);
        let expected = time.ok_or((21, 15));
        assert_eq!(plan.times(17).map(|times| times[15]), expected);
        add(plan);
    }
    let mut plan = lone_vcpu(1, 0, [1, 1], &[task]);
    plan.vcpus.extend([0, 0, LONGEST, 1]);
    assert_eq!(plan.times(3), Err((21, 1)));
    add(plan);
    cases
}

/// Needs of more than 32 bits at a t within the deadline. In 32 bits some of them would come out below
/// the supply.
fn large_needs() -> Vec<Case> {
    let mut cases = Vec::new();
    let mut add = |plan: Plan, expected: (u32, u32)| {
        let room = plan.rows() + 1;
        assert_eq!(plan.times(room), Err(expected));
        cases.push(Case::Admission { plan, room });
    };
    let all = 0xFFFF;
    let charge = 1 + 16 * RELOAD;
    let wraps = |cost: &u32| {
        let t = cost + charge;
        let need = u64::from(*cost) + u64::from(t) * u64::from(charge);
        need % (1 << 32) <= u64::from(t)
    };
    let wrapping = (1..LONGEST - charge).filter(wraps).step_by(5).take(6);
    for cost in wrapping.chain([1, 1000, LONGEST - charge, LONGEST]) {
        let rows = [[1, 1, all, 1], [LONGEST, LONGEST, all, cost]];
        add(lone_vcpu(all, RELOAD, [1, 1], &rows), (22, 1));
    }
    // fifteen rows that share no colour with each other and one with the last
    for period in [15, 16, 20, 1000] {
        let mut rows: Vec<[u32; 4]> = (0..15).map(|c| [period, period, 1 << c, 1]).collect();
        rows.push([LONGEST, LONGEST, all, 1]);
        let mut plan = lone_vcpu(all, RELOAD, [LONGEST, LONGEST], &rows);
        add(plan.clone(), (22, 15));
        vcpu_row(&mut plan, 0)[VCPU_PERIOD..].copy_from_slice(&[1, 1]);
        add(plan, (22, 15));
    }
    // the largest need of all, were the first row admitted
    let rows = [[1, 1, all, LONGEST]; TASKS];
    add(lone_vcpu(all, RELOAD, [1, 1], &rows), (22, 0));
    let rows = [[LONGEST, LONGEST, all, LONGEST]; TASKS];
    add(lone_vcpu(all, RELOAD, [1, 1], &rows), (22, 1));
    cases
}

/// Faults that are tested after the board.
fn spoil_sizes(random: &mut Random, plan: &mut Plan) {
    match random.below(4) {
        0 => plan.reload = RELOAD + 1,
        1 => plan.vcpus.clear(),
        2 => plan.tasks.clear(),
        _ => task_row(plan, 0)[COLOUR_SET] = 0,
    }
}

/// Refusals 2 to 7, each alone and with failures that are tested after it.
fn spoilt_boards(random: &mut Random) -> Vec<Case> {
    let counts = [0, 3, 5, 12, 15, 17, 32, (1 << 16) + 4, u32::MAX];
    let frames = [0, 4097, 65_600, (1 << 16) + 5, 1 << 31, u32::MAX];
    let domains = [0, 9, 16, 256 + 3, (1 << 16) + 3, u32::MAX];
    let mut cases = Vec::new();
    let mut add = |random: &mut Random, board: Board, several: bool, number: u32, row: u32| {
        let lowest = 1 << (board.grants[0].trailing_zeros() % 16);
        let mut plan = lone_vcpu(1, 100, [10, 10], &[[10, 10, lowest, 5]]);
        plan.board = board;
        if several {
            spoil_sizes(random, &mut plan);
        }
        let room = any_room(random, plan.rows());
        assert_eq!(plan.times(room), Err((number, row)));
        cases.push(Case::Admission { plan, room });
    };
    for several in [false, true] {
        let start = |random: &mut Random| {
            let mut board = accepted(random, 16, 64, 3);
            if several {
                let (number, row) = random.pick(&[(5, 1), (6, 0), (7, 2)]);
                spoil(random, &mut board, number, row);
            }
            board
        };
        for n in counts {
            let mut board = start(random);
            board.colours = n;
            if several {
                board.frames = random.pick(&frames);
                board.domains = random.pick(&domains);
            }
            add(random, board, several, 2, 0);
        }
        for f in frames {
            let mut board = start(random);
            board.frames = f;
            if several {
                board.domains = random.pick(&domains);
            }
            add(random, board, several, 3, 0);
        }
        for count in domains {
            let mut board = start(random);
            board.domains = count;
            add(random, board, several, 4, 0);
        }
        for (number, rows) in [(5, 8), (6, 7), (7, 8)] {
            for row in 0..rows {
                let n = random.pick(&[8, 16]);
                let mut board = accepted(random, n, 4096, 8);
                if several {
                    // 5 takes colours away and 6 adds some, so a later number is made first
                    for later in (number + 1..=7).rev() {
                        let other = random.below(7) as u32;
                        spoil(random, &mut board, later, other);
                    }
                }
                spoil(random, &mut board, number, row);
                add(random, board, several, number, row);
            }
        }
    }
    cases
}

/// Lists that are cut, too long or empty, reloads about their limit, and lists of times about the number
/// of rows; alone and with failures that are tested after these.
fn lengths(random: &mut Random) -> Vec<Case> {
    let mut cases = Vec::new();
    let mut add = |plan: Plan, room: usize, expected: Option<u32>| {
        let refused = plan.times(room).err();
        assert_eq!(refused, expected.map(|number| (number, 0)));
        cases.push(Case::Admission { plan, room });
    };
    let resized = |words: &[u32], row: usize, length: usize| -> Vec<u32> {
        let last = words[words.len() - row..].iter();
        words
            .iter()
            .chain(last.cycle())
            .take(length)
            .copied()
            .collect()
    };
    let small = |random: &mut Random| {
        let tasks = 1 + random.below(4) as usize;
        admitted(random, 2, tasks)
    };
    let spoilt = |random: &mut Random| {
        let mut plan = small(random);
        let (number, row) = random.pick(&[(17, 1), (17, 0), (18, 0), (22, 0)]);
        spoil_row(random, &mut plan, number, row);
        plan
    };
    for several in [false, true] {
        let start = |random: &mut Random| match several {
            false => small(random),
            true => spoilt(random),
        };
        for reload in [RELOAD + 1, (1 << 16) + 5, 1 << 31, u32::MAX] {
            let mut plan = start(random);
            plan.reload = reload;
            let room = match several {
                true => random.pick(&[0, 1, LONGEST_LIST]),
                false => plan.rows(),
            };
            add(plan, room, Some(15));
        }
        for length in [0, 1, 2, 3, 5, 7, 9, 63, 65, 66, 67, 68, 72, 80] {
            let mut plan = start(random);
            plan.vcpus = resized(&plan.vcpus, VCPU_WORDS, length);
            if several {
                plan.tasks.truncate(random.pick(&[0, 1, 19]));
            }
            add(plan, LONGEST_LIST, Some(15));
        }
        for length in [0, 1, 19, 21, 39, 41, 639, 641, 660, 700] {
            let mut plan = start(random);
            plan.tasks = resized(&plan.tasks, TASK_WORDS, length);
            add(plan, LONGEST_LIST, Some(16));
        }
        for missing in [1, 2] {
            let plan = start(random);
            let room = plan.rows() - missing;
            add(plan, room, Some(16));
            add(start(random), 0, Some(16));
        }
    }
    for (vcpus, tasks) in [(1, 1), (1, 3), (5, 2), (16, 5), (2, 32), (16, 32)] {
        let plan = admitted(random, vcpus, tasks);
        let rows = vcpus + tasks;
        for (room, expected) in [(rows - 1, Some(16)), (rows, None), (rows + 1, None)] {
            add(plan.clone(), room, expected);
        }
    }
    cases
}

/// Values about the limits in each field of a row that is not the first.
fn fields(random: &mut Random) -> Vec<Case> {
    let mut cases = Vec::new();
    let numbers = [0, 1, 2, LONGEST, LONGEST + 1, 1 << 16, 1 << 31, u32::MAX];
    for field in 0..VCPU_WORDS {
        let mut values = numbers.to_vec();
        if field < VCPU_PERIOD {
            values.extend([3, 4, 5, 7, 8]);
        }
        for value in values {
            let mut plan = admitted(random, 3, 2);
            vcpu_row(&mut plan, 1)[field] = value;
            let room = any_room(random, plan.rows());
            cases.push(Case::Admission { plan, room });
        }
    }
    for field in 0..TASK_WORDS {
        let values = match field {
            COSTS.. => &[0, 1, LONGEST, LONGEST + 1, u32::MAX][..],
            _ => &numbers,
        };
        for value in values {
            let mut plan = admitted(random, 2, 3);
            task_row(&mut plan, 1)[field] = *value;
            let room = any_room(random, plan.rows());
            cases.push(Case::Admission { plan, room });
        }
    }
    // all at their highest or lowest, and admitted
    let highest = [LONGEST, LONGEST, 1, LONGEST];
    let mut plan = lone_vcpu(1, RELOAD, [LONGEST, LONGEST], &[highest]);
    plan.board.colours = 1;
    assert_eq!(plan.times(2), Ok(vec![LONGEST, LONGEST]));
    cases.push(Case::Admission { plan, room: 2 });
    let mut plan = lone_vcpu(1, 0, [1, 1], &[[1, 1, 1, 1]]);
    plan.board.frames = 1;
    assert_eq!(plan.times(2), Ok(vec![1, 1]));
    cases.push(Case::Admission { plan, room: 2 });
    // a budget of 1 has supplied nothing before 2 × (P − 1) + 1
    for (period, deadline, expected) in [
        (500_000, 999_999, Ok(999_999)),
        (500_000, 999_998, Err((22, 0))),
        (LONGEST, LONGEST, Err((22, 0))),
    ] {
        let plan = lone_vcpu(1, 0, [period, 1], &[[LONGEST, deadline, 1, 1]]);
        assert_eq!(plan.vcpus[VCPU_BUDGET], 1);
        assert_eq!(plan.times(2).map(|times| times[1]), expected);
        cases.push(Case::Admission { plan, room: 2 });
    }
    // only the cost for the colours held counts, wherever it stands
    for held in 1..=16 {
        let set = (1 << held) - 1;
        let mut plan = lone_vcpu(0xFFFF, 0, [100, 100], &[[100, 100, set, 1]]);
        for (place, word) in task_row(&mut plan, 0)[COSTS..].iter_mut().enumerate() {
            *word = 60 - place as u32;
        }
        assert_eq!(plan.times(2), Ok(vec![100, 61 - held]));
        cases.push(Case::Admission { plan, room: 2 });
    }
    cases
}

/// Refusals 17 to 22 with every row, each alone and with failures that are tested after it: the same
/// number at a later row, a later number at any row.
fn spoilt_rows(random: &mut Random) -> Vec<Case> {
    let mut cases = Vec::new();
    let faults: Vec<(u32, usize)> = [
        (17, 0..16),
        (18, 0..32),
        (19, 1..32),
        (20, 0..31),
        (21, 1..16),
        (22, 0..32),
    ]
    .into_iter()
    .flat_map(|(number, rows)| rows.map(move |row| (number, row)))
    .collect();
    let of_vcpus = |number| [17, 21].contains(&number);
    for (place, first) in faults.iter().copied().enumerate() {
        for more in [0, 4] {
            cases.push(loop {
                let (number, row) = first;
                let least = row + 1 + usize::from(number == 20);
                let (vcpus, tasks) = match of_vcpus(number) {
                    true => (
                        least + random.below(3) as usize,
                        1 + random.below(4) as usize,
                    ),
                    false => (
                        1 + random.below(8) as usize,
                        least + random.below(2) as usize,
                    ),
                };
                let (vcpus, tasks) = (vcpus.min(VCPUS), tasks.min(TASKS));
                let mut plan = admitted(random, vcpus, tasks);
                let mut others: Vec<(u32, usize)> = (0..more)
                    .map(|_| random.pick(&faults[place..]))
                    .filter(|(number, row)| match of_vcpus(*number) {
                        true => *row < vcpus,
                        false => *row < tasks,
                    })
                    .filter(|other| *other != first)
                    .collect();
                // each is made before those tested ahead of it, which then see a plan that passes theirs
                others.sort();
                for (number, row) in others.into_iter().rev() {
                    spoil_row(random, &mut plan, number, row);
                }
                if spoil_row(random, &mut plan, number, row) {
                    let room = any_room(random, plan.rows());
                    assert_eq!(plan.times(room), Err((number, row as u32)));
                    break Case::Admission { plan, room };
                }
            });
        }
    }
    cases
}

/// Parts of lists in any order, with words short of a row behind them, a VCPU's rows in two runs, and
/// small numbers in every field, so that a row read at the wrong place shows; numbers that do not occur.
fn parts(random: &mut Random) -> Vec<Case> {
    let mut cases = Vec::new();
    for i in 0..90 {
        let rows = match i % 6 {
            0 => random.below(35) as usize,
            _ => random.below(9) as usize,
        };
        let tail = random.pick(&[0, 0, 1, 7, 19]);
        let names = random.pick(&[[0, 1, 2], [3, 3, 15], [0, 0, u32::MAX], [5, 1 << 16, 5]]);
        let mut tasks: Vec<u32> = Vec::new();
        while tasks.len() < rows * TASK_WORDS + tail {
            let same_again = tasks.len() >= TASK_WORDS && random.below(2) == 0;
            let name = match same_again {
                true => tasks[tasks.len() - TASK_WORDS],
                false => random.pick(&names),
            };
            tasks.push(name);
            for _ in 1..TASK_WORDS {
                let any = random.word();
                tasks.push(random.pick(&[names[0], names[1], names[2], any]));
            }
        }
        tasks.truncate(rows * TASK_WORDS + tail);
        let any = random.word();
        let absent = [4, 16, 65_541, any];
        let vcpu = match random.below(5) {
            0 => random.pick(&absent),
            _ => random.pick(&names),
        };
        cases.push(Case::Part { vcpu, tasks });
    }
    for length in [0, 1, 19, 20, 21, MOST_TASK_WORDS] {
        let tasks = vec![3; length];
        cases.push(Case::Part { vcpu: 3, tasks });
    }
    // the parts of a plan, those of VCPUs without rows too
    for _ in 0..6 {
        let plan = admitted(random, 4, 8);
        for vcpu in [0, 1, 2, 3, 4] {
            let tasks = plan.tasks.clone();
            cases.push(Case::Part { vcpu, tasks });
        }
        assert_eq!(tasks(&plan.tasks).len(), 8);
    }
    cases
}

/// The supply about each corner of its curve, and at any t.
fn supplies(random: &mut Random) -> Vec<Case> {
    let mut resources = vec![
        (1, 1),
        (2, 1),
        (2, 2),
        (5000, 3000),
        (LONGEST, 1),
        (LONGEST, LONGEST),
        (LONGEST, LONGEST - 1),
        (LONGEST, LONGEST / 2),
    ];
    for _ in 0..24 {
        let size = random.pick(&[10, 1000, LONGEST.into()]);
        let period = 1 + random.below(size);
        resources.push((period as u32, 1 + random.below(period) as u32));
    }
    let mut cases = Vec::new();
    for (period, budget) in resources {
        let gap = period - budget;
        let later = period * random.below(4000) as u32;
        for corner in [
            gap,
            2 * gap,
            gap + period,
            2 * gap + period,
            2 * gap + later,
            gap + later,
        ] {
            for t in [corner.saturating_sub(1), corner, corner + 1] {
                cases.push(Case::Supply { period, budget, t });
            }
        }
        let any = random.any_size() as u32;
        for t in [0, 1, 1 << 31, u32::MAX, random.word(), any] {
            cases.push(Case::Supply { period, budget, t });
        }
    }
    cases
}

#[cfg(test)]
mod tests {
    use super::*;

    /// The report finds every refusal and row that can occur, and the input stays small.
    #[test]
    fn every_refusal_occurs() {
        let set = set(crate::SEED);
        assert!(set.report());
        assert!(set.stdin.len() < 1_400_000);
    }
}
