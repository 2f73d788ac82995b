//! Every refusal through the binding, with its row, each by the call that gives it; and what
//! was lent is afterwards as it was.

use juzvanec::*;

const REFUSED: &str = "the call is refused";

/// A number and row, and what makes a call be refused so.
type SpoiltFrames = (u32, u32, fn(&mut Board, &mut Vec<u16>));
type SpoiltPlan = (u32, u32, fn(&mut Plan));

/// A board with frames of colour 0 to 3, two guests, and some frames held.
fn state() -> (Board, Vec<u16>) {
    let board = Board::new(4, 8, &[0x3, 0xC]);
    (board, vec![10, 2, 4097, 0, 0, RESERVED, 0, 0])
}

/// What the call refuses, after it was seen to leave board, table and move list alone.
fn frames(
    spoil: impl Fn(&mut Board, &mut Vec<u16>),
    call: impl Fn(&mut Board, &mut [u16], &mut [u16]) -> Option<Refusal>,
) -> (u32, u32) {
    let (mut board, mut table) = state();
    let mut moves = [7; 5];
    spoil(&mut board, &mut table);
    let before = (board, table.clone());
    let refusal = call(&mut board, &mut table, &mut moves).expect(REFUSED);
    assert_eq!((board, table, moves), (before.0, before.1, [7; 5]));
    (refusal.number, refusal.row)
}

/// 2 to 7, 26 and 8, the same of all the calls.
#[test]
fn boards() {
    let spoils: [SpoiltFrames; 14] = [
        (2, 0, |board, _| board.colours = 3),
        (3, 0, |board, _| board.frames = 4097),
        (3, 0, |_, table| table.push(0)),
        (4, 0, |board, _| board.domains = 9),
        (4, 0, |board, _| board.domains = 0),
        (5, 1, |board, _| board.grants[1] = 0x1C),
        (6, 0, |board, _| board.grants[1] = 0xE),
        (7, 1, |board, _| board.active[1] = 0x2),
        (26, 0, |board, _| board.quotas[1] = 0),
        (26, 0, |board, _| board.quotas[0] = 4097),
        (8, 0, |board, _| board.domains = 1),
        // behind 7 and before 8, and of domains below the count alone
        (7, 1, |b, _| (b.active[1], b.quotas[0]) = (0x2, 0)),
        (26, 0, |b, _| (b.domains, b.quotas[0]) = (1, 0)),
        (8, 0, |b, _| (b.domains, b.quotas[1]) = (1, 0)),
    ];
    for (number, row, spoil) in spoils {
        let expected = (number, row);
        let looked = |b: &mut Board, t: &mut [u16], _: &mut [u16]| look(b, t, 1, 0).err();
        assert_eq!(frames(spoil, looked), expected);
        assert_eq!(frames(spoil, |b, t, _| fault(b, t, 1, 3).err()), expected);
        assert_eq!(frames(spoil, |b, t, _| release(b, t, 1, 0).err()), expected);
        assert_eq!(frames(spoil, |b, t, _| colours(b, t, 1).err()), expected);
        let asked = |b: &mut Board, t: &mut [u16], _: &mut [u16]| set_quota(b, t, 1, 0).err();
        assert_eq!(frames(spoil, asked), expected);
        let recoloured =
            |b: &mut Board, t: &mut [u16], m: &mut [u16]| recolour(b, t, 1, 0x4, m).err();
        assert_eq!(frames(spoil, recoloured), expected);
        // with a set and a list that are refused after these
        let taken = |b: &mut Board, t: &mut [u16], m: &mut [u16]| take_back(b, t, 1, 0, m).err();
        assert_eq!(frames(spoil, taken), expected);
    }
}

/// 9, 10, 12, 13, 14, 27, 28, 31 and 32.
#[test]
fn calls() {
    let sound = |_: &mut Board, _: &mut Vec<u16>| {};
    for set in [0, 0x4, 1 << 31] {
        assert_eq!(
            frames(sound, |b, t, m| recolour(b, t, 0, set, m).err()),
            (9, 0)
        );
        assert_eq!(
            frames(sound, |b, t, m| take_back(b, t, 0, set, m).err()),
            (9, 0)
        );
    }
    assert_eq!(frames(sound, |b, t, _| look(b, t, 0, 4096).err()), (10, 0));
    assert_eq!(frames(sound, |b, t, _| fault(b, t, 0, 4096).err()), (10, 0));
    assert_eq!(
        frames(sound, |b, t, _| release(b, t, 0, 4096).err()),
        (10, 0)
    );
    let full = |_: &mut Board, table: &mut Vec<u16>| table[4] = RESERVED;
    assert_eq!(frames(full, |b, t, _| fault(b, t, 0, 3).err()), (12, 0));
    assert_eq!(
        frames(full, |b, t, m| recolour(b, t, 0, 0x1, m).err()),
        (12, 0)
    );
    let two =
        |b: &mut Board, t: &mut [u16], m: &mut [u16]| recolour(b, t, 0, 0x1, &mut m[..2]).err();
    assert_eq!(frames(sound, two), (13, 0));
    assert_eq!(frames(sound, |b, t, _| release(b, t, 0, 3).err()), (14, 0));
    // domain 0 holds two frames
    for quota in [0, 1, 4097, u32::MAX] {
        let asked = |b: &mut Board, t: &mut [u16], _: &mut [u16]| set_quota(b, t, 0, quota).err();
        assert_eq!(frames(sound, asked), (27, 0));
    }
    let at_quota = |board: &mut Board, _: &mut Vec<u16>| board.quotas[0] = 2;
    assert_eq!(frames(at_quota, |b, t, _| fault(b, t, 0, 3).err()), (28, 0));
    // a list of five words; then none, though frame 1 lies outside the set
    assert_eq!(
        frames(sound, |b, t, m| take_back(b, t, 0, 0x1, m).err()),
        (31, 0)
    );
    assert_eq!(
        frames(sound, |b, t, _| take_back(b, t, 0, 0x1, &[]).err()),
        (32, 0)
    );
}

#[test]
fn pages() {
    let numbers = |replies: &[Result<u32, Refusal>]| -> Vec<(u32, u32)> {
        let refusals = replies.iter().map(|reply| reply.expect_err(REFUSED));
        refusals
            .map(|refusal| (refusal.number, refusal.row))
            .collect()
    };
    let sizes = [
        cache_colours(0, 1),
        cache_colours(4096, 0),
        cache_colours(4096 * 32, 1),
    ];
    assert_eq!(numbers(&sizes), [(2, 0); 3]);
    let laid = [
        layout(12, 1, 0),
        layout(4, 0x10, 0),
        layout(4, 1, LAST_INDEX + 1),
    ];
    assert_eq!(numbers(&laid), [(2, 0), (9, 0), (10, 0)]);
    let bleached = [
        bleach(0, 1, 0),
        bleach(4, 0, 0),
        bleach(4, 1, LAST_BLEACHED + 1),
        bleach(4, 1, 6),
    ];
    assert_eq!(numbers(&bleached), [(2, 0), (9, 0), (10, 0), (11, 0)]);
}

/// What admission is lent; of the lists of times and of rounds, their lengths.
struct Plan {
    board: Board,
    reload: u32,
    vcpus: Vec<u32>,
    tasks: Vec<u32>,
    times: usize,
    rounds: usize,
}

/// Two VCPUs on core 0 with one task each, admitted.
fn plan() -> Plan {
    let mut tasks = Vec::new();
    for (vcpu, set) in [(0, 0x1), (1, 0x2)] {
        tasks.extend([vcpu, 400, 400, set]);
        tasks.extend([10; 16]);
    }
    Plan {
        board: Board::new(4, 8, &[0x3, 0xC]),
        reload: 0,
        vcpus: vec![0, 0, 100, 50, 0, 0, 100, 50],
        tasks,
        times: 4,
        rounds: 4,
    }
}

/// The refusal of a spoilt plan, after the lists of times and of rounds were seen to be left alone; none
/// where it is admitted.
fn refusal(spoil: impl Fn(&mut Plan)) -> Option<(u32, u32)> {
    let mut plan = plan();
    spoil(&mut plan);
    let (mut times, mut rounds) = (vec![7; plan.times], vec![8; plan.rounds]);
    let reply = admit_plan(
        &plan.board,
        plan.reload,
        &plan.vcpus,
        &plan.tasks,
        &mut times,
        &mut rounds,
    );
    let refusal = reply.err()?;
    assert_eq!(times, vec![7; plan.times]);
    assert_eq!(rounds, vec![8; plan.rounds]);
    Some((refusal.number, refusal.row))
}

#[test]
fn plans() {
    let spoils: [SpoiltPlan; 21] = [
        (2, 0, |plan| plan.board.colours = 5),
        (3, 0, |plan| plan.board.frames = 0),
        (4, 0, |plan| plan.board.domains = 9),
        (5, 0, |plan| plan.board.grants[0] = 0x10),
        (6, 0, |plan| plan.board.grants[1] = 0xD),
        (7, 1, |plan| plan.board.active[1] = 0x1),
        (15, 0, |plan| plan.reload = 10_001),
        // the quotas of the board are not looked at
        (15, 0, |p| (p.reload, p.board.quotas[0]) = (10_001, 0)),
        (15, 0, |plan| plan.vcpus.truncate(7)),
        (16, 0, |plan| plan.tasks.clear()),
        (16, 0, |plan| plan.times = 3),
        (16, 0, |plan| plan.rounds = 3),
        (16, 0, |plan| (plan.times, plan.rounds) = (0, 0)),
        // a short list of rounds goes behind 15 and before 17, as one of times does
        (15, 0, |plan| (plan.rounds, plan.reload) = (3, 10_001)),
        (16, 0, |plan| (plan.rounds, plan.vcpus[4]) = (3, 4)),
        (17, 1, |plan| plan.vcpus[4] = 4),
        (18, 1, |plan| plan.tasks[39] = 11),
        (19, 1, |plan| (plan.tasks[0], plan.tasks[20]) = (1, 0)),
        (20, 0, |plan| plan.tasks[23] = 0x3),
        (21, 1, |plan| plan.vcpus[3] = 51),
        (22, 1, |plan| plan.tasks[22] = 109),
    ];
    assert_eq!(refusal(|_| {}), None);
    assert_eq!(refusal(|plan| plan.board.quotas = [0; DOMAINS]), None);
    for (number, row, spoil) in spoils {
        assert_eq!(refusal(spoil), Some((number, row)));
    }
    // P 100, Q 50: the supply covers a cost of 10 first in 110
    assert_eq!(refusal(|plan| plan.tasks[22] = 110), None);
}

/// Refusal 1 is the program's alone.
#[test]
fn program() {
    for input in [&[][..], &[16; 3], &[9; 48]] {
        let verdict = admit(input);
        assert_eq!(verdict.text(), b"refused 1 0\n");
        assert_eq!(verdict.admitted(), Err(Refusal { number: 1, row: 0 }));
        assert_eq!(verdict.words(), 0);
    }
}

#[test]
fn meanings() {
    let shown = |number, row| Refusal { number, row }.to_string();
    assert_eq!(
        shown(8, 0),
        "refused 8: the calling domain is not below the domain count"
    );
    assert_eq!(
        shown(7, 3),
        "refused 7, domain 3: an active set is empty or has a colour outside its grant"
    );
    assert_eq!(
        shown(28, 0),
        "refused 28: the page is unmapped, and the frames held are at or above the quota"
    );
    assert_eq!(
        shown(32, 0),
        "refused 32: some frame of the domain would lie outside the former set"
    );
    assert_eq!(
        shown(21, 2),
        "refused 21, VCPU row 2: the VCPU has no time up to its period"
    );
    assert_eq!(
        shown(22, 2),
        "refused 22, task row 2: the task has no time up to its deadline"
    );
}
