//! The boards, tables and plans that are measured, and the list of cases.

use baseline::Board;

use crate::cases::{Admission, Boot, Case, Colours, Fault, Frames, IdleFault, Look, Pages};
use crate::cases::{Recolour, SetQuota, TakeBack};

/// All rows of the largest plan.
pub const ROWS: usize = 48;

/// The quota that a domain has at first.
const FIRST_QUOTA: u32 = 4096;

/// The numbers that the plans here are answered with.
const ADMITTED: u32 = 0;
const LATE: u32 = 22;

pub struct Plan {
    pub board: Board,
    pub reload: u32,
    pub vcpus: Vec<u32>,
    pub tasks: Vec<u32>,
}

fn board(frames: u32, sets: &[u32]) -> Board {
    let mut grants = [0; 8];
    grants[..sets.len()].copy_from_slice(sets);
    Board {
        colours: 16,
        frames,
        domains: sets.len() as u32,
        grants,
        active: grants,
        quotas: [FIRST_QUOTA; 8],
    }
}

/// Four domains with four colours each.
fn guests(frames: u32) -> Board {
    board(frames, &[0x000F, 0x00F0, 0x0F00, 0xF000])
}

fn word(domain: u32, page: u32) -> u16 {
    (1 + 4096 * domain + page) as u16
}

/// A table whose first frames are held, each by the domain that its colour belongs to.
fn held(frames: u32, used: u32) -> Vec<u16> {
    let hold = |frame: u32| match frame < used {
        true => word(frame % 16 / 4, frame),
        false => 0,
    };
    (0..frames).map(hold).collect()
}

/// Every frame is held but the last of domain 1's colours.
fn nearly_full(frames: u32) -> Vec<u16> {
    let mut table = held(frames, frames);
    table[frames as usize - 9] = 0;
    table
}

/// Domain 1 holds some of the first and some of the last frames of its four colours, fewer the later the first
/// free one comes.
fn crowded(frames: u32) -> Vec<u16> {
    let n = frames / 16;
    let shares = [(0, n - 1), (n / 16, n / 2), (n / 8, n / 4), (n / 4, 0)];
    let mut table = held(frames, 0);
    for (colour, (first, last)) in (4..8).zip(shares) {
        for place in (0..first).chain(n - last..n) {
            let frame = 16 * place + colour;
            table[frame as usize] = word(1, frame);
        }
    }
    table
}

/// How many frames of the lower half of the colours are held in a recolouring.
fn moving(frames: u32) -> u32 {
    frames * 125 / 256
}

/// The page of a frame that has to move.
type Page = fn(u32) -> u32;

/// Pages that rise and fall with the frames, and pages as if by chance: each step takes no two numbers to one, so
/// that no two frames have one page.
const RISING: Page = |frame| frame;
const FALLING: Page = |frame| 4095 - frame;
const SCATTERED: Page = |frame| {
    let mixed = 1597 * frame % 4096;
    let mixed = (mixed ^ mixed >> 7) * 2837 % 4096;
    mixed ^ mixed >> 5
};

/// One domain with all colours holds so many frames of the lower half, and so many of three colours of the upper,
/// the last ones.
fn lower_half(frames: u32, lower: u32, page: Page, upper: [u32; 3]) -> (Board, Vec<u16>) {
    let mut board = board(frames, &[0xFFFF]);
    board.active[0] = 0x00FF;
    let mut table = vec![0; frames as usize];
    let first = (0..frames).filter(|frame| frame % 16 < 8);
    for frame in first.take(lower as usize) {
        table[frame as usize] = word(0, page(frame));
    }
    for (colour, count) in (8..).zip(upper) {
        for frame in (colour..frames).step_by(16).rev().take(count as usize) {
            table[frame as usize] = word(0, frame);
        }
    }
    (board, table)
}

/// A recolouring of so many frames to the upper half.
fn recolouring(frames: u32, moves: u32, page: Page) -> Recolour {
    let (board, table) = lower_half(frames, moves, page, [0; 3]);
    Recolour::new(board, table, 0xFF00, moves)
}

/// The same where no frame of the upper half is left over, and some of its colours have frames already.
fn uneven_recolouring(frames: u32) -> Recolour {
    let moves = moving(frames);
    let spare = frames / 2 - moves;
    let [half, third] = [spare / 2, spare / 3];
    let (board, table) = lower_half(frames, moves, RISING, [half, third, spare - half - third]);
    Recolour::new(board, table, 0xFF00, moves)
}

/// The frames of `lower_half`, but in the upper one.
fn upper_half(frames: u32) -> (Board, Vec<u16>) {
    let (board, mut table) = lower_half(frames, moving(frames), RISING, [0; 3]);
    // from a frame to the one whose colour is eight higher
    table.rotate_right(8);
    (board, table)
}

/// A recolouring to the upper half, where all those frames lie already.
fn idle_recolouring(frames: u32) -> Recolour {
    let (board, table) = upper_half(frames);
    Recolour::new(board, table, 0xFF00, 0)
}

/// A recolouring of so many frames to the upper half, taken back.
fn taking_back(frames: u32, moves: u32) -> TakeBack {
    let (board, table) = lower_half(frames, moves, RISING, [0; 3]);
    TakeBack::new(board, table, 0xFF00)
}

/// A recolouring from all colours to the upper half that moved nothing, taken back.
fn idle_taking_back(frames: u32) -> TakeBack {
    let (mut board, table) = upper_half(frames);
    board.active[0] = 0xFFFF;
    TakeBack::new(board, table, 0xFF00)
}

fn task(vcpu: u32, period: u32, deadline: u32, set: u32, cost: u32) -> Vec<u32> {
    let mut row = vec![vcpu, period, deadline, set];
    row.extend((0..16).map(|place| cost + 15 - place));
    row
}

/// Sixteen VCPUs, four on each core, with a colour each, and the tasks spread over them.
pub fn typical(tasks: u32) -> Plan {
    let vcpu = |row: u32| [row % 4, 0, 10_000 + 1000 * (row / 4), 2000];
    let mut rows: Vec<u32> = (0..tasks).map(|row| row % 16).collect();
    rows.sort();
    let row = |(place, vcpu): (usize, &u32)| {
        let period = 50_000 + 7000 * (place as u32 % 5);
        task(*vcpu, period, period, 1 << vcpu, 900 + 30 * place as u32)
    };
    Plan {
        board: board(64, &[0xFFFF]),
        reload: 100,
        vcpus: (0..16).flat_map(vcpu).collect(),
        tasks: rows.iter().enumerate().flat_map(row).collect(),
    }
}

/// One VCPU with all tasks. Each shares a colour with the next one, so that a row's arrivals are charged to
/// rows that share nothing with it, through those between.
pub fn nested(tasks: u32) -> Plan {
    let row = |row: u32| {
        let set = 1 << (row % 16) | 1 << ((row + 1) % 16);
        let period = 50_000 + 7000 * (row % 5);
        task(0, period, period, set, 300 + 30 * row)
    };
    Plan {
        board: board(64, &[0xFFFF]),
        reload: 100,
        vcpus: vec![0, 0, 10_000, 9000],
        tasks: (0..tasks).flat_map(row).collect(),
    }
}

const LONGEST: u32 = 1_000_000;

/// The period of each of the tasks that take a sixth together.
fn of_a_sixth(tasks: u32) -> u32 {
    6 * (tasks - 3)
}

/// One VCPU that has its core alone, and tasks that take all of it, or nearly: two of short periods, and the
/// others a sixth together, where the last of these has that period. The search of the last task, which has
/// that cost, climbs in short steps to a deadline of 1,000,000.
fn climbing(tasks: u32, period: u32, cost: u32) -> Plan {
    let row = |period, set, cost| {
        let mut row = task(0, period, period, set, 1);
        row[4..].fill(cost);
        row
    };
    let mut rows = [row(2, 1, 1), row(3, 2, 1)].concat();
    for place in 0..tasks - 4 {
        rows.extend(row(of_a_sixth(tasks), 1 << (place % 16), 1));
    }
    rows.extend(row(period, 1 << ((tasks - 4) % 16), 1));
    rows.extend(row(LONGEST, 0x8000, cost));
    Plan {
        board: board(64, &[0xFFFF]),
        reload: 0,
        vcpus: vec![0, 0, LONGEST, LONGEST],
        tasks: rows,
    }
}

/// Nothing is left for the last task, which has no time.
pub fn hard(tasks: u32) -> Plan {
    climbing(tasks, of_a_sixth(tasks), 1)
}

/// With one period a microsecond longer than the others' p, one of p × (p + 1) microseconds is left. The last
/// task has as much to do as is left up to its deadline.
pub fn long(tasks: u32) -> Plan {
    let period = of_a_sixth(tasks);
    climbing(tasks, period + 1, LONGEST / (period * (period + 1)))
}

/// The rounds of the rows of a plan of one VCPU that has its core alone, where there is no reload: a round
/// goes from t to the need in t, up to one that stays at t or exceeds the deadline.
pub fn rounds(plan: &Plan) -> Vec<u32> {
    let rows: Vec<[u64; 3]> = plan
        .tasks
        .chunks(20)
        .map(|row| [row[1], row[2], row[19]].map(u64::from))
        .collect();
    let of_row = |place: usize| {
        let [_, deadline, cost] = rows[place];
        let earlier = &rows[..place];
        let (mut t, mut rounds) = (1u64, 0);
        loop {
            let asked = earlier.iter().map(|row| t.div_ceil(row[0]) * row[2]);
            let need = cost + asked.sum::<u64>();
            rounds += 1;
            if need == t || need > deadline {
                return rounds;
            }
            t = need;
        }
    };
    // the VCPU's budget is first covered in as many microseconds
    let of_vcpu = 1 + u32::from(plan.vcpus[3] > 1);
    [of_vcpu]
        .into_iter()
        .chain((0..rows.len()).map(of_row))
        .collect()
}

/// The rounds that the last search of the hard plan takes.
pub fn hard_rounds(tasks: u32) -> u32 {
    let others = u64::from(tasks) - 3;
    let (mut t, mut rounds) = (1u64, 0);
    while t <= LONGEST.into() {
        t = 1 + t.div_ceil(2) + t.div_ceil(3) + others * t.div_ceil(6 * others);
        rounds += 1;
    }
    rounds
}

/// A case, what it is at any size, and its name at this size.
pub struct Named {
    pub kind: &'static str,
    pub name: String,
    pub case: Box<dyn Case>,
}

fn named(kind: &'static str, size: &str, case: impl Case + 'static) -> Named {
    Named {
        kind,
        name: format!("{kind}{size}"),
        case: Box::new(case),
    }
}

/// A page that domain 1 has no frame for: frame 0 has a colour of domain 0.
const UNMAPPED: u32 = 0;

fn frames(table: Vec<u16>, page: u32) -> Frames {
    Frames::new(guests(table.len() as u32), table, page)
}

/// The frame calls on F frames.
fn frame_cases(f: u32) -> Vec<Named> {
    let (first, last) = (4, f - 9);
    let faults = f * 125 / 512;
    let boot = Boot {
        frames: frames(held(f, 0), 0),
        faults,
        table: vec![0; f as usize],
    };
    let look = |page| Look(frames(held(f, f), page));
    let mapped = |page| IdleFault::mapped(frames(held(f, f), page));
    let fault = |table| Fault(frames(table, UNMAPPED));
    let half = || frames(held(f, f / 2), UNMAPPED);
    let at_quota = IdleFault::at_quota(half());
    let colours = Colours(half());
    let set_quota = SetQuota(half(), f / 2);
    let size = format!(", F = {f}");
    let mut cases = vec![
        named("look, page in one of the first frames", &size, look(first)),
        named("look, page in one of the last frames", &size, look(last)),
        named("fault, empty table", &size, fault(held(f, 0))),
        named("fault, half-full table", &size, fault(held(f, f / 2))),
        named("fault, nearly full table", &size, fault(nearly_full(f))),
        named("fault, crowded table", &size, fault(crowded(f))),
        named(
            "fault, page in one of the first frames",
            &size,
            mapped(first),
        ),
        named("fault, page in one of the last frames", &size, mapped(last)),
        named("fault at the quota, half-full table", &size, at_quota),
        named("colours, half-full table", &size, colours),
        named("set quota, half-full table", &size, set_quota),
        named("boot", &format!(" of {faults} faults{size}"), boot),
    ];
    cases.extend(recolour_cases(f, "", |case| case));
    cases.extend(take_back_cases(f));
    cases
}

/// The recolourings of F frames, against this baseline.
fn recolour_cases(f: u32, by: &str, against: fn(Recolour) -> Recolour) -> Vec<Named> {
    let moves = moving(f);
    let all = |page| recolouring(f, moves, page);
    let size = format!(", F = {f}{by}");
    let sizes = format!(" of {moves} frames{size}");
    let listed = format!(", {moves} frames{size}");
    let cases = [
        ("recolour", &sizes, all(RISING)),
        ("recolour, falling pages", &listed, all(FALLING)),
        ("recolour, scattered pages", &listed, all(SCATTERED)),
        ("uneven recolour", &sizes, uneven_recolouring(f)),
        ("recolour of 10 frames", &size, recolouring(f, 10, RISING)),
        ("recolour that moves nothing", &size, idle_recolouring(f)),
    ];
    let cases = cases.into_iter();
    cases
        .map(|(kind, size, case)| named(kind, size, against(case)))
        .collect()
}

/// Recolourings of F frames that are taken back.
fn take_back_cases(f: u32) -> Vec<Named> {
    let moves = moving(f);
    let all = || taking_back(f, moves);
    let size = format!(", F = {f}");
    let sizes = format!(" of {moves} frames{size}");
    let listed = format!(", {moves} frames{size}");
    let shuffled = all().by_key(SCATTERED);
    vec![
        named("take back", &sizes, all()),
        named("take back, shuffled list", &listed, shuffled),
        named("take back of 10 frames", &size, taking_back(f, 10)),
        named("take back, empty list", &size, idle_taking_back(f)),
    ]
}

/// Recolouring at full size against a baseline that sorts.
pub fn by_sort() -> Vec<Named> {
    recolour_cases(4096, ", by sort_by_key", Recolour::by_sort)
}

fn plan_cases(tasks: u32) -> Vec<Named> {
    let size = format!(", {tasks} tasks");
    let rounds = format!("{size}, {} rounds", hard_rounds(tasks));
    vec![
        named(
            "admission, typical plan",
            &size,
            Admission::new(typical(tasks), ADMITTED),
        ),
        named(
            "admission, nested sets",
            &size,
            Admission::new(nested(tasks), ADMITTED),
        ),
        named(
            "admission, hard plan",
            &rounds,
            Admission::new(hard(tasks), LATE),
        ),
    ]
}

/// Every call at full size.
pub fn full_size() -> Vec<Named> {
    let mut cases = frame_cases(4096);
    cases.push(named("layout", "", Pages::new(false)));
    cases.push(named("bleaching", "", Pages::new(true)));
    cases.extend(plan_cases(32));
    cases
}

/// The calls at several sizes, and what the sizes count.
pub struct Growth {
    pub unit: &'static str,
    pub sizes: Vec<u32>,
    /// For each size the cases, in one order.
    pub cases: Vec<Vec<Named>>,
}

pub fn growth() -> [Growth; 2] {
    let [f, tasks] = [vec![256, 1024, 4096], vec![4, 8, 16, 32]];
    [
        Growth {
            unit: "F =",
            cases: f.iter().map(|f| frame_cases(*f)).collect(),
            sizes: f,
        },
        Growth {
            unit: "tasks:",
            cases: tasks.iter().map(|tasks| plan_cases(*tasks)).collect(),
            sizes: tasks,
        },
    ]
}

/// Plans whose searches take many rounds, and how many tasks stand before the last, whose search takes
/// nearly all of them.
pub fn by_rounds() -> Vec<(Named, u32)> {
    let case = |kind, tasks: u32, plan: Plan, expected| {
        let case = Admission::by_rounds(plan, expected);
        let size = format!(", {tasks} tasks, by rounds");
        (named(kind, &size, case), tasks - 1)
    };
    let long = |tasks| case("admission, long plan", tasks, long(tasks), ADMITTED);
    let late = case("admission, hard plan", 32, hard(32), LATE);
    [4, 8, 16, 32].map(long).into_iter().chain([late]).collect()
}

/// All cases, some of them twice.
pub fn all() -> impl Iterator<Item = Named> {
    let grown = growth().into_iter().flat_map(|growth| growth.cases);
    let by_rounds = by_rounds().into_iter().map(|(named, _)| named);
    full_size()
        .into_iter()
        .chain(by_sort())
        .chain(grown.flatten())
        .chain(by_rounds)
}
