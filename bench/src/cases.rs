//! The cases that are measured. Each makes one call on either side, with the same arguments and the same
//! work around it, and can say whether the two sides answer alike.

use std::hint::black_box;

use baseline::{Board, Faulted, Looked, Refusal};

use crate::inputs::{self, Plan};
use crate::ours::{self, Raw};

/// A call on either side.
pub trait Case {
    fn ours(&mut self);
    fn base(&mut self);
    /// Runs both sides once and compares replies and lists.
    fn agree(&mut self) -> bool;
    /// What the two functions are called in the program, ours first.
    fn symbols(&self) -> [&'static str; 2];

    /// The rounds of all searches that a call makes, where they are counted.
    fn rounds(&self) -> Option<u32> {
        None
    }

    fn run_ours(&mut self, calls: u32) {
        for _ in 0..calls {
            self.ours();
        }
    }

    fn run_base(&mut self, calls: u32) {
        for _ in 0..calls {
            self.base();
        }
    }
}

/// The baseline's reply as the interface would give it.
fn reply<A>(reply: Result<A, Refusal>, values: impl Fn(A) -> [u32; 2]) -> Raw {
    let (number, row, values) = match reply {
        Ok(answer) => (0, 0, values(answer)),
        Err(refusal) => (refusal.number, refusal.row, [0; 2]),
    };
    Raw {
        number,
        row,
        values,
    }
}

/// Layout or bleaching over a ring of numbers.
pub struct Pages {
    pub bleaching: bool,
    pub numbers: [u32; 64],
    at: usize,
}

const PAGES_SET: u32 = 0x5A3C;

impl Pages {
    pub fn new(bleaching: bool) -> Self {
        let inside = |page: &u32| !bleaching || PAGES_SET >> (page % 16) & 1 == 1;
        let mut spread = (0..).map(|i| i * 259_993 % (1 << 24)).filter(inside);
        let numbers = std::array::from_fn(|_| spread.next().expect("no end"));
        Pages {
            bleaching,
            numbers,
            at: 0,
        }
    }

    #[inline(always)]
    fn next(&mut self) -> u32 {
        self.at = (self.at + 1) % 64;
        self.numbers[self.at]
    }
}

impl Case for Pages {
    fn ours(&mut self) {
        let number = black_box(self.next());
        let (n, set) = black_box((16, PAGES_SET));
        black_box(match self.bleaching {
            true => ours::bleach(n, set, number),
            false => ours::layout(n, set, number),
        });
    }

    fn base(&mut self) {
        let number = black_box(self.next());
        let (n, set) = black_box((16, PAGES_SET));
        let _ = black_box(match self.bleaching {
            true => baseline::bleach(n, set, number),
            false => baseline::layout(n, set, number),
        });
    }

    fn agree(&mut self) -> bool {
        self.numbers.into_iter().all(|number| match self.bleaching {
            true => {
                let base = reply(baseline::bleach(16, PAGES_SET, number), |index| [index, 0]);
                ours::bleach(16, PAGES_SET, number) == base
            }
            false => {
                let base = reply(baseline::layout(16, PAGES_SET, number), |page| [page, 0]);
                ours::layout(16, PAGES_SET, number) == base
            }
        })
    }

    fn symbols(&self) -> [&'static str; 2] {
        match self.bleaching {
            true => ["juzvanec_bleach", "baseline_bleach"],
            false => ["juzvanec_layout", "baseline_layout"],
        }
    }
}

/// A board and table on which domain 1 looks or faults pages, and the table is restored.
pub struct Frames {
    board: Board,
    lent: juzvanec::Board,
    table: Vec<u16>,
    page: u32,
}

impl Frames {
    pub fn new(board: Board, table: Vec<u16>, page: u32) -> Self {
        Frames {
            board,
            lent: ours::lent(&board),
            table,
            page,
        }
    }
}

/// A look of a page.
pub struct Look(pub Frames);

impl Case for Look {
    fn ours(&mut self) {
        let Frames { lent, table, .. } = &self.0;
        let page = black_box(self.0.page);
        black_box(ours::look(black_box(lent), black_box(table), 1, page));
    }

    fn base(&mut self) {
        let Frames { board, table, .. } = &self.0;
        let page = black_box(self.0.page);
        let _ = black_box(baseline::look(black_box(board), black_box(table), 1, page));
    }

    fn agree(&mut self) -> bool {
        let Frames {
            lent,
            board,
            table,
            page,
        } = &self.0;
        let base = baseline::look(board, table, 1, *page);
        let base = reply(base, |looked| match looked {
            Looked::Mapped(frame) => [1, frame as u32],
            Looked::Unmapped => [0, 0],
        });
        ours::look(lent, table, 1, *page) == base
    }

    fn symbols(&self) -> [&'static str; 2] {
        ["juzvanec_look", "baseline_look"]
    }
}

/// A fault of an unmapped page; the frame it gets is made free again.
pub struct Fault(pub Frames);

fn faulted(faulted: Faulted) -> [u32; 2] {
    match faulted {
        Faulted::Old(frame) => [0, frame as u32],
        Faulted::New(frame) => [1, frame as u32],
    }
}

impl Case for Fault {
    fn ours(&mut self) {
        let page = black_box(self.0.page);
        let Frames { lent, table, .. } = &mut self.0;
        let reply = black_box(ours::fault(black_box(lent), black_box(table), 1, page));
        let [_, frame] = reply.values;
        self.0.table[frame as usize] = 0;
    }

    fn base(&mut self) {
        let page = black_box(self.0.page);
        let Frames { board, table, .. } = &mut self.0;
        let reply = black_box(baseline::fault(black_box(board), black_box(table), 1, page));
        if let Ok(Faulted::New(frame)) = reply {
            self.0.table[frame] = 0;
        }
    }

    fn agree(&mut self) -> bool {
        let page = self.0.page;
        let [mut one, mut two] = [self.0.table.clone(), self.0.table.clone()];
        let base = reply(baseline::fault(&self.0.board, &mut one, 1, page), faulted);
        let ours = ours::fault(&self.0.lent, &mut two, 1, page);
        // the cases are all of new frames, which `ours` and `base` rely on
        ours == base && one == two && ours.values[0] == 1
    }

    fn symbols(&self) -> [&'static str; 2] {
        ["juzvanec_fault", "baseline_fault"]
    }
}

/// A fault that changes nothing: of a mapped page, or one that is refused with the number.
pub struct IdleFault {
    frames: Frames,
    number: u32,
}

impl IdleFault {
    /// Of a page that has its frame.
    pub fn mapped(frames: Frames) -> Self {
        IdleFault { frames, number: 0 }
    }

    /// Of an unmapped page, with the quota just reached.
    pub fn at_quota(mut frames: Frames) -> Self {
        let own = |word: &&u16| **word != 0 && (**word - 1) / 4096 == 1;
        let held = frames.table.iter().filter(own).count();
        frames.board.quotas[1] = held as u32;
        frames.lent = ours::lent(&frames.board);
        IdleFault { frames, number: 28 }
    }
}

impl Case for IdleFault {
    fn ours(&mut self) {
        let page = black_box(self.frames.page);
        let Frames { lent, table, .. } = &mut self.frames;
        black_box(ours::fault(black_box(lent), black_box(table), 1, page));
    }

    fn base(&mut self) {
        let page = black_box(self.frames.page);
        let Frames { board, table, .. } = &mut self.frames;
        let _ = black_box(baseline::fault(black_box(board), black_box(table), 1, page));
    }

    fn agree(&mut self) -> bool {
        let Frames {
            board,
            lent,
            table,
            page,
            ..
        } = &self.frames;
        let [mut one, mut two] = [table.clone(), table.clone()];
        let base = reply(baseline::fault(board, &mut one, 1, *page), faulted);
        let ours = ours::fault(lent, &mut two, 1, *page);
        let untouched = one == *table && two == *table;
        // an answer is an old frame
        ours == base && untouched && ours.number == self.number && ours.values[0] == 0
    }

    fn symbols(&self) -> [&'static str; 2] {
        ["juzvanec_fault", "baseline_fault"]
    }
}

/// The colours and the quota of domain 1.
pub struct Colours(pub Frames);

impl Case for Colours {
    fn ours(&mut self) {
        let Frames { lent, table, .. } = &self.0;
        black_box(ours::colours(black_box(lent), black_box(table), 1));
    }

    fn base(&mut self) {
        let Frames { board, table, .. } = &self.0;
        let _ = black_box(baseline::colours(black_box(board), black_box(table), 1));
    }

    fn agree(&mut self) -> bool {
        let Frames {
            lent, board, table, ..
        } = &self.0;
        let base = reply(baseline::colours(board, table, 1), |(set, quota)| {
            [set, quota]
        });
        let ours = ours::colours(lent, table, 1);
        ours == base && ours.number == 0
    }

    fn symbols(&self) -> [&'static str; 2] {
        ["juzvanec_colours", "baseline_colours"]
    }
}

/// Domain 1 sets its quota to this, again and again.
pub struct SetQuota(pub Frames, pub u32);

impl SetQuota {
    fn reply_ours(&mut self) -> Raw {
        let SetQuota(Frames { lent, table, .. }, quota) = self;
        ours::set_quota(black_box(lent), black_box(table), 1, black_box(*quota))
    }

    fn reply_base(&mut self) -> Result<u32, Refusal> {
        let SetQuota(Frames { board, table, .. }, quota) = self;
        baseline::set_quota(black_box(board), black_box(table), 1, black_box(*quota))
    }
}

impl Case for SetQuota {
    fn ours(&mut self) {
        black_box(self.reply_ours());
    }

    fn base(&mut self) {
        let _ = black_box(self.reply_base());
    }

    fn agree(&mut self) -> bool {
        let ours = self.reply_ours();
        let base = reply(self.reply_base(), |quota| [quota, 0]);
        let boards = self.0.lent == ours::lent(&self.0.board);
        ours == base && boards && ours.number == 0 && self.0.lent.quotas[1] == self.1
    }

    fn symbols(&self) -> [&'static str; 2] {
        ["juzvanec_set_quota", "baseline_set_quota"]
    }
}

/// Faults of that many pages in turn, from a table that is copied first.
pub struct Boot {
    pub frames: Frames,
    pub faults: u32,
    pub table: Vec<u16>,
}

impl Case for Boot {
    fn ours(&mut self) {
        self.table.copy_from_slice(&self.frames.table);
        for page in 0..self.faults {
            let lent = black_box(&self.frames.lent);
            black_box(ours::fault(lent, &mut self.table, 1, black_box(page)));
        }
    }

    fn base(&mut self) {
        self.table.copy_from_slice(&self.frames.table);
        for page in 0..self.faults {
            let board = black_box(&self.frames.board);
            let _ = black_box(baseline::fault(board, &mut self.table, 1, black_box(page)));
        }
    }

    fn agree(&mut self) -> bool {
        self.ours();
        let ours = self.table.clone();
        self.base();
        let held = ours.iter().filter(|word| **word != 0).count();
        ours == self.table && held == self.faults as usize
    }

    fn symbols(&self) -> [&'static str; 2] {
        ["juzvanec_fault", "baseline_fault"]
    }
}

/// Domain 0 recolours to a set, which takes that many moves; board and table are copied first. The baseline goes
/// by the library's method, or sorts.
pub struct Recolour {
    start: Frames,
    set: u32,
    expected: u32,
    now: Frames,
    moves: Vec<u16>,
    by_sort: bool,
}

impl Recolour {
    pub fn new(board: Board, table: Vec<u16>, set: u32, expected: u32) -> Self {
        Recolour {
            start: Frames::new(board, table.clone(), 0),
            set,
            expected,
            moves: vec![0; 3 * table.len()],
            now: Frames::new(board, table, 0),
            by_sort: false,
        }
    }

    pub fn by_sort(self) -> Self {
        Recolour {
            by_sort: true,
            ..self
        }
    }

    #[inline(always)]
    fn restore(&mut self) {
        self.now.board = self.start.board;
        self.now.lent = self.start.lent;
        self.now.table.copy_from_slice(&self.start.table);
    }

    fn reply_ours(&mut self) -> Raw {
        self.restore();
        let Frames { lent, table, .. } = &mut self.now;
        let set = black_box(self.set);
        ours::recolour(lent, table, 0, set, &mut self.moves)
    }

    fn reply_base(&mut self) -> Result<usize, Refusal> {
        self.restore();
        let Frames { board, table, .. } = &mut self.now;
        let set = black_box(self.set);
        match self.by_sort {
            true => baseline::recolour_by_sort(board, table, 0, set, &mut self.moves),
            false => baseline::recolour(board, table, 0, set, &mut self.moves),
        }
    }
}

impl Case for Recolour {
    fn ours(&mut self) {
        black_box(self.reply_ours());
    }

    fn base(&mut self) {
        let _ = black_box(self.reply_base());
    }

    fn agree(&mut self) -> bool {
        self.moves.fill(7);
        let one = self.reply_ours();
        let (table, lent, moves) = (self.now.table.clone(), self.now.lent, self.moves.clone());
        self.moves.fill(7);
        let two = reply(self.reply_base(), |count| [count as u32, 0]);
        let Frames { board, .. } = &self.now;
        let lists = table == self.now.table && moves == self.moves;
        let counted = one.number == 0 && one.values[0] == self.expected;
        one == two && lists && lent == ours::lent(board) && counted
    }

    fn symbols(&self) -> [&'static str; 2] {
        match self.by_sort {
            true => ["juzvanec_recolour", "baseline_recolour_by_sort"],
            false => ["juzvanec_recolour", "baseline_recolour"],
        }
    }
}

/// Domain 0 takes a recolouring back: the state before it, which comes out again, and the one after it, which is
/// copied first.
pub struct TakeBack {
    before: Frames,
    after: Frames,
    moves: Vec<u16>,
    now: Frames,
}

impl TakeBack {
    /// Of moves of all frames outside a set to free ones in it, with the list in page order. No recolouring makes
    /// them, whose instructions would be counted with those of its own cases.
    pub fn new(board: Board, table: Vec<u16>, set: u32) -> Self {
        let (mut after, mut moved) = (board, table.clone());
        after.active[0] = set;
        let inside = |frame: &usize| set >> (frame % board.colours as usize) & 1 == 1;
        let held = (0..table.len()).filter(|frame| (1..=4096).contains(&table[*frame]));
        let free = (0..table.len()).filter(|frame| table[*frame] == 0 && inside(frame));
        let mut triples: Vec<[u16; 3]> = held
            .filter(|frame| !inside(frame))
            .zip(free)
            .map(|(old, new)| [table[old] - 1, old as u16, new as u16])
            .collect();
        triples.sort_unstable();
        for [_, old, new] in &triples {
            moved.swap(usize::from(*old), usize::from(*new));
        }
        TakeBack {
            before: Frames::new(board, table, 0),
            now: Frames::new(after, moved.clone(), 0),
            after: Frames::new(after, moved, 0),
            moves: triples.concat(),
        }
    }

    /// With the list by this key of its pages.
    pub fn by_key(mut self, key: fn(u32) -> u32) -> Self {
        let mut triples: Vec<&[u16]> = self.moves.chunks(3).collect();
        triples.sort_by_key(|triple| key(triple[0].into()));
        self.moves = triples.concat();
        self
    }

    #[inline(always)]
    fn restore(&mut self) {
        self.now.board = self.after.board;
        self.now.lent = self.after.lent;
        self.now.table.copy_from_slice(&self.after.table);
    }

    fn reply_ours(&mut self) -> Raw {
        self.restore();
        let Frames { lent, table, .. } = &mut self.now;
        let set = black_box(self.before.board.active[0]);
        ours::take_back(lent, table, 0, set, black_box(&mut self.moves))
    }

    fn reply_base(&mut self) -> Result<usize, Refusal> {
        self.restore();
        let Frames { board, table, .. } = &mut self.now;
        let set = black_box(self.before.board.active[0]);
        baseline::take_back(board, table, 0, set, black_box(&self.moves))
    }
}

impl Case for TakeBack {
    fn ours(&mut self) {
        black_box(self.reply_ours());
    }

    fn base(&mut self) {
        let _ = black_box(self.reply_base());
    }

    fn agree(&mut self) -> bool {
        let moves = self.moves.clone();
        let one = self.reply_ours();
        let ours = self.now.table == self.before.table && self.now.lent == self.before.lent;
        let two = reply(self.reply_base(), |count| [count as u32, 0]);
        let base =
            self.now.table == self.before.table && ours::lent(&self.now.board) == self.before.lent;
        let counted = one.number == 0 && one.values[0] == moves.len() as u32 / 3;
        one == two && ours && base && counted && moves == self.moves
    }

    fn symbols(&self) -> [&'static str; 2] {
        ["juzvanec_take_back", "baseline_take_back"]
    }
}

/// The admission of a plan.
pub struct Admission {
    plan: Plan,
    lent: juzvanec::Board,
    times: Vec<u32>,
    rounds: Vec<u32>,
    expected: u32,
    /// Whether the rounds of all searches can be counted apart.
    counted: bool,
}

impl Admission {
    pub fn new(plan: Plan, expected: u32) -> Self {
        Admission {
            lent: ours::lent(&plan.board),
            times: vec![7; inputs::ROWS],
            rounds: vec![9; inputs::ROWS],
            plan,
            expected,
            counted: false,
        }
    }

    /// With the rounds counted that it takes.
    pub fn by_rounds(plan: Plan, expected: u32) -> Self {
        Admission {
            counted: true,
            ..Admission::new(plan, expected)
        }
    }

    fn reply_ours(&mut self) -> Raw {
        let Plan { vcpus, tasks, .. } = black_box(&self.plan);
        let reload = black_box(self.plan.reload);
        let (times, rounds) = (&mut self.times, &mut self.rounds);
        ours::admit_plan(&self.lent, reload, vcpus, tasks, times, rounds)
    }

    fn reply_base(&mut self) -> Result<(), Refusal> {
        let Plan {
            board,
            vcpus,
            tasks,
            reload,
        } = black_box(&self.plan);
        let (times, rounds) = (&mut self.times, &mut self.rounds);
        baseline::admit_plan(board, *reload, vcpus, tasks, times, rounds)
    }

    /// The lists as they are before a call that is compared, and no word of one is one of the other.
    fn mark(&mut self) {
        self.times.fill(7);
        self.rounds.fill(9);
    }

    /// Whether the rounds counted are those that a call wrote. A refused plan has none written.
    fn as_counted(&self) -> bool {
        let refused = self.expected != 0;
        !self.counted || refused || self.rounds.starts_with(&inputs::rounds(&self.plan))
    }
}

impl Case for Admission {
    fn ours(&mut self) {
        black_box(self.reply_ours());
    }

    fn base(&mut self) {
        let _ = black_box(self.reply_base());
    }

    fn agree(&mut self) -> bool {
        self.mark();
        let one = self.reply_ours();
        let lists = (self.times.clone(), self.rounds.clone());
        self.mark();
        let two = reply(self.reply_base(), |()| [0; 2]);
        let same = lists == (self.times.clone(), self.rounds.clone());
        one == two && same && one.number == self.expected && self.as_counted()
    }

    fn symbols(&self) -> [&'static str; 2] {
        ["juzvanec_admit_plan", "baseline_admit_plan"]
    }

    fn rounds(&self) -> Option<u32> {
        let all = || inputs::rounds(&self.plan).iter().sum();
        self.counted.then(all)
    }
}
