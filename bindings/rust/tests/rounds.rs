//! The rounds of document 02, No. 9, through the binding. Every number is worked out by hand from that
//! text: a round starts at t, 1 at first, works out the need in t and takes the first microsecond whose
//! supply covers it; the search ends when this equals t or exceeds the deadline. The workings have a line
//! for each round with these three numbers. Nothing is reloaded here.

use juzvanec::*;

type Reply = Result<(), Refusal>;

fn vcpu(core: u32, period: u32, budget: u32) -> Vcpu {
    Vcpu {
        core,
        domain: 0,
        period,
        budget,
    }
}

/// A task row; the sixteen costs are equal.
fn task(vcpu: u32, period: u32, deadline: u32, set: u32, cost: u32) -> Task {
    Task {
        vcpu,
        period,
        deadline,
        set,
        costs: [cost; COLOURS],
    }
}

/// The reply, and the lists of times and of rounds afterwards: so many words each, of 7 and of 8 before.
fn admit(vcpus: &[Vcpu], tasks: &[Task], lengths: [usize; 2]) -> (Reply, Vec<u32>, Vec<u32>) {
    let board = Board::new(16, 64, &[0xFFFF]);
    let (mut times, mut rounds) = (vec![7; lengths[0]], vec![8; lengths[1]]);
    let (vcpus, tasks) = (Vcpu::words(vcpus), Task::words(tasks));
    let reply = admit_plan(&board, 0, vcpus, tasks, &mut times, &mut rounds);
    (reply, times, rounds)
}

/// The refusal of a plan, after the lists were seen to be left alone.
fn refused(vcpus: &[Vcpu], tasks: &[Task], lengths: [usize; 2]) -> (u32, u32) {
    let (reply, times, rounds) = admit(vcpus, tasks, lengths);
    assert_eq!((times, rounds), (vec![7; lengths[0]], vec![8; lengths[1]]));
    let refusal = reply.expect_err("the plan is refused");
    (refusal.number, refusal.row)
}

/// A VCPU of another core between two of one; three tasks under full supply, and two under the supply of
/// P 3,000 and Q 1,000, which covers a need of n first in 4,000 + n while n is at most 1,000, in 6,000 + n
/// up to 2,000 and in 8,000 + n up to 3,000.
fn two_cores() -> ([Vcpu; 3], [Task; 5]) {
    let vcpus = [vcpu(0, 1000, 500), vcpu(1, 2000, 2000), vcpu(0, 3000, 1000)];
    let tasks = [
        task(1, 100, 100, 0x1, 40),
        task(1, 150, 150, 0x2, 30),
        task(1, 1000, 1000, 0x4, 60),
        task(2, 5000, 5000, 0x8, 300),
        task(2, 30_000, 30_000, 0x10, 1500),
    ];
    (vcpus, tasks)
}

/// The rounds stand in the order of the times, and the rest of neither list changes.
///
/// ```text
/// row          t    need   first
/// VCPU 0       1     500     500
///            500     500     500
/// VCPU 1       1   2,000   2,000   alone on its core
///          2,000   2,000   2,000
/// VCPU 2       1   1,500   1,500   1,000 + 1 * 500
///          1,500   2,000   2,000   1,000 + 2 * 500
///          2,000   2,000   2,000   the same, since 2,000 / 1,000 is 2
/// task 0       1      40      40
///             40      40      40
/// task 1       1      70      70   30 + 1 * 40
///             70      70      70
/// task 2       1     130     130   60 + 1 * 40 + 1 * 30
///            130     170     170   60 + 2 * 40 + 1 * 30
///            170     200     200   60 + 2 * 40 + 2 * 30
///            200     200     200   the same, since 200 / 100 and 200 / 150 rounded up are 2
/// task 3       1     300   4,300
///          4,300     300   4,300
/// task 4       1   1,800   7,800   1,500 + 1 * 300
///          7,800   2,100  10,100   1,500 + 2 * 300
///         10,100   2,400  10,400   1,500 + 3 * 300
///         10,400   2,400  10,400   the same, since 10,400 / 5,000 rounded up is 3
/// ```
#[test]
fn rounds_stand_by_their_times() {
    let (vcpus, tasks) = two_cores();
    let times = [500, 2000, 2000, 40, 70, 200, 4300, 10_400];
    let rounds = [2, 2, 3, 2, 2, 4, 2, 4];
    let just_so = admit(&vcpus, &tasks, [8, 8]);
    assert_eq!(just_so, (Ok(()), times.to_vec(), rounds.to_vec()));
    let longer = admit(&vcpus, &tasks, [9, 11]);
    let (times, rounds) = ([&times[..], &[7]].concat(), [&rounds[..], &[8; 3]].concat());
    assert_eq!(longer, (Ok(()), times, rounds));
}

#[test]
fn either_list_may_be_too_short() {
    let (vcpus, tasks) = two_cores();
    for lengths in [[7, 8], [8, 7], [7, 7], [0, 99], [99, 0]] {
        assert_eq!(refused(&vcpus, &tasks, lengths), (16, 0));
    }
}

/// A VCPU or a task that needs a microsecond and has it at once.
///
/// ```text
/// row       t   need   first
/// VCPU 0    1     10      10
///          10     10      10
/// VCPU 1    1      1       1
/// VCPU 2    1      2       2   1 + 1 * 1
///           2      2       2
/// task 0    1      1       1   the supply is full
/// task 1    1      3       3   2 + 1 * 1
///           3      3       3
/// task 2    1      1      19   P 10 and Q 1: the supply is 0 in 18 and 1 in 19
///          19      1      19
/// ```
#[test]
fn a_microsecond_had_at_once_takes_one_round() {
    let vcpus = [vcpu(0, 10, 10), vcpu(1, 10, 1), vcpu(1, 20, 1)];
    let tasks = [
        task(0, 100, 100, 0x1, 1),
        task(0, 100, 100, 0x2, 2),
        task(1, 100, 100, 0x4, 1),
    ];
    let (reply, times, rounds) = admit(&vcpus, &tasks, [6, 6]);
    assert_eq!(reply, Ok(()));
    assert_eq!(times, [10, 1, 2, 1, 3, 19]);
    assert_eq!(rounds, [2, 1, 2, 1, 2, 2]);
}

/// A row behind one that takes all but a microsecond of each of its periods.
fn long_search(deadline: u32) -> ([Vcpu; 1], [Task; 2]) {
    let tasks = [
        task(0, 1000, 1000, 0x1, 999),
        task(0, 1_000_000, deadline, 0x2, 1000),
    ];
    ([vcpu(0, 1_000_000, 1_000_000)], tasks)
}

/// As many rounds as there can be: 2 plus 1,000,000 / 1,000 less 1.
///
/// ```text
/// row             t        need       first
/// VCPU            1   1,000,000   1,000,000
///         1,000,000   1,000,000   1,000,000
/// task 0          1         999         999
///               999         999         999
/// task 1          1       1,999       1,999   round 1: 1,000 + 1 * 999
///             1,999       2,998       2,998   round 2: 1,000 + 2 * 999
///             2,998       3,997       3,997   round 3: 1,000 + 3 * 999
/// ```
///
/// Round n starts at 1,000 + (n - 1) * 999 = 1,000 * n - (n - 1), from n = 2 on. Over 1,000 and rounded up
/// this is n while n - 1 is below 1,000, so that the need is 1,000 + n * 999, which is not t:
///
/// ```text
///           999,001   1,000,000   1,000,000   round 1,000: 1,000 + 1,000 * 999
///         1,000,000   1,000,000   1,000,000   round 1,001: the same, since 1,000,000 / 1,000 is 1,000
/// ```
#[test]
fn the_bound_is_met() {
    let (vcpus, tasks) = long_search(1_000_000);
    let (reply, times, rounds) = admit(&vcpus, &tasks, [3, 3]);
    assert_eq!(reply, Ok(()));
    assert_eq!(times, [1_000_000, 999, 1_000_000]);
    assert_eq!(rounds, [2, 2, 1001]);
}

/// A microsecond less, and round 1,000 ends the search late. VCPUs that are late have no rounds either.
#[test]
fn a_late_plan_writes_no_rounds() {
    let (vcpus, tasks) = long_search(999_999);
    assert_eq!(refused(&vcpus, &tasks, [3, 4]), (22, 1));
    let vcpus = [vcpu(0, 100, 60), vcpu(0, 100, 41)];
    let tasks = [task(0, 1000, 1000, 0x1, 1)];
    assert_eq!(refused(&vcpus, &tasks, [4, 3]), (21, 1));
}
