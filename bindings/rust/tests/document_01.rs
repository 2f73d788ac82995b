//! The examples of document 01, "Examples from the recorder", through the binding. The numbers are
//! written off that section; the rounds are worked out by hand as document 02, No. 9, defines them. The
//! workings have a line for each round: the t at which it starts, the need in t, and the first microsecond
//! whose supply covers that need.

use juzvanec::*;

fn refused<A>(number: u32, row: u32) -> Result<A, Refusal> {
    Err(Refusal { number, row })
}

/// One task row; the sixteen costs are equal.
fn task(vcpu: u32, period: u32, deadline: u32, set: u32, cost: u32) -> Vec<u32> {
    let mut row = vec![vcpu, period, deadline, set];
    row.extend([cost; 16]);
    row
}

/// The times that a plan of one VCPU gets, and their rounds.
fn admitted(reload: u32, vcpu: [u32; 4], rows: &[Vec<u32>]) -> Result<[Vec<u32>; 2], Refusal> {
    let board = Board::new(16, 64, &[255]);
    let mut times = vec![0; 1 + rows.len()];
    let mut rounds = times.clone();
    let tasks = rows.concat();
    admit_plan(&board, reload, &vcpu, &tasks, &mut times, &mut rounds).map(|()| [times, rounds])
}

#[test]
fn cache_sizes() {
    assert_eq!(cache_colours(1_048_576, 16), Ok(16));
    assert_eq!(cache_colours(2_097_152, 16), refused(2, 0));
}

#[test]
fn layout_and_bleaching() {
    assert_eq!(layout(16, 0x00F0, 6), Ok(22));
    assert_eq!(bleach(16, 0x00F0, 22), Ok(6));
    assert_eq!(layout(16, 0x0005, 3), Ok(18));
    assert_eq!(bleach(16, 0x0005, 17), refused(11, 0));
    assert_eq!(bleach(16, 0x8000, 0x5F_FFFF), Ok(0x5_FFFF));
}

/// The last index of one colour of 16 is the last page that can be bleached.
#[test]
fn limits_of_layout_and_bleaching() {
    assert_eq!(layout(16, 0x8000, LAST_INDEX), Ok(LAST_BLEACHED));
    assert_eq!(bleach(16, 0x8000, LAST_BLEACHED), Ok(LAST_INDEX));
    assert_eq!(layout(16, 0x8000, LAST_INDEX + 1), refused(10, 0));
    assert_eq!(bleach(16, 0x8000, LAST_BLEACHED + 1), refused(10, 0));
}

/// Look and release take the lowest of two frames with the page's word.
#[test]
fn lowest_frame() {
    let board = Board::new(4, 8, &[0x3, 0xC]);
    let mut table = [0, 0, 4097, 10, 0, 10, 0, 0];
    assert_eq!(look(&board, &table, 0, 9), Ok(Looked::Mapped(3)));
    assert_eq!(fault(&board, &mut table, 0, 9), Ok(Faulted::Old(3)));
    assert_eq!(release(&board, &mut table, 0, 9), Ok(3));
    assert_eq!(table, [0, 0, 4097, 0, 0, 10, 0, 0]);
}

#[test]
fn two_guests() {
    let mut board = Board::new(4, 8, &[0x3, 0xC]);
    let mut table = [FREE; 8];
    assert_eq!(fault(&board, &mut table, 0, 9), Ok(Faulted::New(0)));
    assert_eq!(fault(&board, &mut table, 1, 0), Ok(Faulted::New(2)));
    assert_eq!(fault(&board, &mut table, 0, 1), Ok(Faulted::New(1)));
    let mut moves = [7; 4];
    assert_eq!(recolour(&mut board, &mut table, 0, 0x1, &mut moves), Ok(1));
    assert_eq!(moves, [1, 1, 4, 7]);
    assert_eq!(table, [10, 0, 4097, 0, 2, 0, 0, 0]);
    assert_eq!(
        board,
        Board {
            active: [1, 0xC, 0, 0, 0, 0, 0, 0],
            ..board
        }
    );
    assert_eq!(fault(&board, &mut table, 0, 2), refused(12, 0));
    assert_eq!(table, [10, 0, 4097, 0, 2, 0, 0, 0]);
}

#[test]
fn limits_of_pages_and_moves() {
    let mut board = Board::new(4, 8, &[0x3, 0xC]);
    let mut table = [FREE; 8];
    assert_eq!(look(&board, &table, 0, 4095), Ok(Looked::Unmapped));
    assert_eq!(look(&board, &table, 0, 4096), refused(10, 0));
    assert_eq!(fault(&board, &mut table, 0, 4095), Ok(Faulted::New(0)));
    assert_eq!(look(&board, &table, 0, 4095), Ok(Looked::Mapped(0)));
    let short = recolour(&mut board, &mut table, 0, 0x2, &mut [0; 2]);
    assert_eq!(short, refused(13, 0));
    assert_eq!(recolour(&mut board, &mut table, 0, 0x1, &mut []), Ok(0));
    let told = colours(&board, &table, 0).expect("the board is accepted");
    assert_eq!(told.set, 0x1);
    assert_eq!(release(&board, &mut table, 0, 4095), Ok(0));
    assert_eq!(table, [FREE; 8]);
}

#[test]
fn lone_task() {
    let lone = |deadline| {
        let rows = [task(0, 20_000, deadline, 1, 3000)];
        admitted(0, [0, 0, 5000, 3000], &rows)
    };
    // row         t    need   first
    // VCPU        1   3,000   3,000
    //         3,000   3,000   3,000
    // task        1   3,000   7,000
    //         7,000   3,000   7,000
    assert_eq!(lone(7000), Ok([vec![3000, 7000], vec![2, 2]]));
    assert_eq!(lone(6999), refused(22, 0));
}

#[test]
fn three_tasks() {
    let three = |last| {
        let row = |set, cost| task(0, 10_000, 10_000, set, cost);
        let rows = [row(1, 4000), row(2, 4000), row(4, last)];
        admitted(0, [0, 0, 10_000, 10_000], &rows)
    };
    assert_eq!(three(3000), refused(22, 2));
    // row          t     need    first
    // VCPU         1   10,000   10,000
    //         10,000   10,000   10,000
    // task 0       1    4,000    4,000
    //          4,000    4,000    4,000
    // task 1       1    8,000    8,000   4,000 + 1 * 4,000
    //          8,000    8,000    8,000   the same, since 8,000 / 10,000 rounded up is 1
    // task 2       1   10,000   10,000   2,000 + 1 * 4,000 + 1 * 4,000
    //         10,000   10,000   10,000   the same
    let times = vec![10_000, 4000, 8000, 10_000];
    assert_eq!(three(2000), Ok([times, vec![2, 2, 2, 2]]));
}

fn reloading(cost: u32) -> [Vec<u32>; 2] {
    [
        task(0, 4000, 4000, 0x3, 1000),
        task(0, 10_000, 10_000, 0x6, cost),
    ]
}

#[test]
fn reload() {
    let second = |reload, cost| admitted(reload, [0, 0, 10_000, 10_000], &reloading(cost));
    // row          t     need    first
    // VCPU         1   10,000   10,000
    //         10,000   10,000   10,000
    // task 0       1    1,000    1,000
    //          1,000    1,000    1,000
    // task 1       1    3,600    3,600   2,500 + 1 * 1,100
    //          3,600    3,600    3,600   the same, since 3,600 / 4,000 rounded up is 1
    let times = vec![10_000, 1000, 3600];
    assert_eq!(second(100, 2500), Ok([times, vec![2, 2, 2]]));
    // task 1       1    4,100    4,100   3,000 + 1 * 1,100
    //          4,100    5,200    5,200   3,000 + 2 * 1,100
    //          5,200    5,200    5,200   the same, since 5,200 / 4,000 rounded up is 2
    let times = vec![10_000, 1000, 5200];
    assert_eq!(second(100, 3000), Ok([times, vec![2, 2, 3]]));
    // task 1       1    4,000    4,000   3,000 + 1 * 1,000
    //          4,000    4,000    4,000   the same, since 4,000 / 4,000 is 1
    let times = vec![10_000, 1000, 4000];
    assert_eq!(second(0, 3000), Ok([times, vec![2, 2, 2]]));
}

/// The rows of VCPU 1 among those of 0, 1 and 1, and a row of 3 cut short.
#[test]
fn part_of_a_vcpu() {
    let mut tasks = [
        task(0, 9, 9, 1, 1),
        task(1, 8, 8, 2, 1),
        task(1, 7, 7, 2, 1),
    ]
    .concat();
    tasks.extend([3; 19]);
    let own = part(&tasks, 1);
    assert_eq!(own.as_ptr(), tasks[20..].as_ptr());
    assert_eq!(own.len(), 40);
    assert!(part(&tasks, 3).is_empty());
    assert!(part(&[], 0).is_empty());
}

/// The bytes of the program `admit`: the example with the two tasks.
fn admit_input() -> Vec<u8> {
    let mut words = vec![16, 64, 1, 255, 100, 1, 0, 0, 10_000, 10_000, 2];
    words.extend(reloading(3000).concat());
    words
        .iter()
        .flat_map(|word: &u32| word.to_le_bytes())
        .collect()
}

#[test]
fn program_admit() {
    let input = admit_input();
    let verdict = admit(&input);
    let text = "vcpu 0 10000\ntask 0 1000\ntask 1 5200\nadmitted\n";
    assert_eq!(verdict.to_string(), text);
    assert_eq!(verdict.admitted(), Ok(()));
    assert_eq!(verdict.words(), 51);
}

#[test]
fn program_admit_refuses() {
    let mut input = admit_input();
    let cut = admit(&input[..input.len() - 1]);
    assert_eq!(cut.text(), b"refused 1 0\n");
    assert_eq!((cut.admitted(), cut.words()), (refused(1, 0), 0));
    // the first task's cost with two colours and the deadline stay; the period goes below the deadline
    input[4 * 12..][..4].copy_from_slice(&3999u32.to_le_bytes());
    let verdict = admit(&input);
    assert_eq!(verdict.text(), b"refused 18 0\n");
    assert_eq!((verdict.admitted(), verdict.words()), (refused(18, 0), 51));
}
