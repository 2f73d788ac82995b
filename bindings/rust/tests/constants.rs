//! Every constant of the package against the library: accepted at the limit and refused past it with its
//! number. What each refusal means and what its row names is held against docs/REFUSALS.md.

use std::collections::BTreeSet;

use juzvanec::*;

fn refused<A>(number: u32, row: u32) -> Result<A, Refusal> {
    Err(Refusal { number, row })
}

/// As many guests as there may be, with two colours each.
fn most_domains() -> Board {
    let grants: Vec<u32> = (0..DOMAINS).map(|domain| 3 << (2 * domain)).collect();
    Board::new(COLOURS as u32, 16, &grants)
}

#[test]
fn limits_of_a_board() {
    let board = most_domains();
    let last = DOMAINS as u32 - 1;
    let first = |set| {
        let quota = FIRST_QUOTA;
        Ok(Colours { set, quota })
    };
    assert_eq!(colours(&board, &[FREE; 16], last), first(0xC000));
    let crowded = Board {
        domains: DOMAINS as u32 + 1,
        ..board
    };
    assert_eq!(colours(&crowded, &[FREE; 16], 0), refused(4, 0));
    let frames = |frames: usize| {
        let board = Board::new(1, frames as u32, &[1]);
        colours(&board, &vec![FREE; frames], 0)
    };
    assert_eq!(frames(FRAMES), first(1));
    assert_eq!(frames(FRAMES + 1), refused(3, 0));
    assert_eq!(layout(COLOURS as u32, 1, 0), Ok(0));
    assert_eq!(layout(COLOURS as u32 + 1, 1, 0), refused(2, 0));
    assert_eq!(layout(2 * COLOURS as u32, 1, 0), refused(2, 0));
}

/// The fields of a board have their places: each is refused in another's.
#[test]
fn fields_of_a_board() {
    let board = Board {
        colours: 4,
        frames: 8,
        domains: 2,
        grants: [0x3, 0xC, 0, 0, 0, 0, 0, 0],
        active: [0x1, 0x8, 0, 0, 0, 0, 0, 0],
        quotas: [5, 99, 0, 0, 0, 0, 0, 0],
    };
    let told = colours(&board, &[FREE; 8], 1);
    assert_eq!(
        told,
        Ok(Colours {
            set: 0x8,
            quota: 99
        })
    );
}

/// A quota of the board and one that is asked for.
#[test]
fn limits_of_quotas() {
    let mut board = most_domains();
    let table = [FREE; 16];
    let last = DOMAINS as u32 - 1;
    for quota in [1, MOST_QUOTA] {
        assert_eq!(set_quota(&mut board, &table, last, quota), Ok(quota));
        assert_eq!(board.quotas[DOMAINS - 1], quota);
        assert!(colours(&board, &table, 0).is_ok());
    }
    for quota in [0, MOST_QUOTA + 1] {
        let asked = set_quota(&mut board, &table, last, quota);
        assert_eq!(asked, refused(27, 0));
        board.quotas[DOMAINS - 1] = quota;
        assert_eq!(colours(&board, &table, 0), refused(26, 0));
        board.quotas[DOMAINS - 1] = FIRST_QUOTA;
    }
    assert_eq!(FIRST_QUOTA, 4096);
}

#[test]
fn limits_of_pages() {
    let board = Board::new(4, 8, &[0x3, 0xC]);
    let mut table = [FREE; 8];
    assert_eq!(look(&board, &table, 0, LAST_PAGE), Ok(Looked::Unmapped));
    assert_eq!(look(&board, &table, 0, LAST_PAGE + 1), refused(10, 0));
    let fault_last = fault(&board, &mut table, 1, LAST_PAGE);
    assert_eq!(fault_last, Ok(Faulted::New(2)));
    let past = fault(&board, &mut table, 1, LAST_PAGE + 1);
    assert_eq!(past, refused(10, 0));
    assert_eq!(release(&board, &mut table, 1, LAST_PAGE), Ok(2));
    let past = release(&board, &mut table, 1, LAST_PAGE + 1);
    assert_eq!(past, refused(10, 0));
    assert_eq!(layout(16, 0x8000, LAST_INDEX), Ok(LAST_BLEACHED));
    assert_eq!(layout(16, 0x8000, LAST_INDEX + 1), refused(10, 0));
    assert_eq!(bleach(16, 0x8000, LAST_BLEACHED), Ok(LAST_INDEX));
    assert_eq!(bleach(16, 0x8000, LAST_BLEACHED + 1), refused(10, 0));
}

/// The word that a fault writes, a look finds and a release takes away.
#[test]
fn words_of_the_table() {
    let board = most_domains();
    for domain in 0..DOMAINS as u32 {
        let frame = 2 * domain as usize;
        for page in [0, 1, 77, LAST_PAGE] {
            let mut table = [FREE; 16];
            let word = page_word(domain, page).expect("a domain and a page");
            let faulted = fault(&board, &mut table, domain, page);
            assert_eq!(faulted, Ok(Faulted::New(frame)));
            assert_eq!(table[frame], word);
            table = [RESERVED; 16];
            table[15] = word;
            let looked = look(&board, &table, domain, page);
            assert_eq!(looked, Ok(Looked::Mapped(15)));
            assert_eq!(release(&board, &mut table, domain, page), Ok(15));
            assert_eq!(table[15], FREE);
        }
        assert_eq!(page_word(domain, LAST_PAGE + 1), None);
    }
    assert_eq!(page_word(DOMAINS as u32, 0), None);
}

/// A reserved word is neither free nor held. It is the last of 16 bits.
#[test]
fn reserved_word() {
    let board = most_domains();
    let mut table = [RESERVED; 16];
    assert_eq!(fault(&board, &mut table, 0, 0), refused(12, 0));
    for page in 0..=LAST_PAGE {
        assert_eq!(look(&board, &table, 7, page), Ok(Looked::Unmapped));
    }
    assert_eq!(RESERVED, u16::MAX);
}

#[test]
fn words_of_a_move() {
    let moved = |room| {
        let mut board = Board::new(4, 8, &[0x3, 0xC]);
        let mut table = [10, 0, 0, 0, 0, 0, 0, 0];
        let mut moves = vec![7; room];
        recolour(&mut board, &mut table, 0, 0x2, &mut moves).map(|count| (count, moves))
    };
    assert_eq!(moved(MOVE_WORDS), Ok((1, vec![9, 0, 1])));
    assert_eq!(moved(MOVE_WORDS - 1), refused(13, 0));
}

/// The words of a move that is taken back, and the last page and frame that it may name.
#[test]
fn limits_of_taking_back() {
    let back = |page: u32, old: usize, words: usize| {
        let mut board = Board::new(1, FRAMES as u32, &[1]);
        let mut table = vec![FREE; FRAMES];
        table[0] = page_word(0, page).unwrap_or(1 + page as u16);
        let moves = [page as u16, old as u16, 0, 0];
        take_back(&mut board, &mut table, 0, 1, &moves[..words]).map(|count| (count, table[old]))
    };
    let last = (LAST_PAGE, FRAMES - 1);
    assert_eq!(back(last.0, last.1, MOVE_WORDS), Ok((1, 4096)));
    assert_eq!(back(last.0, last.1, 0), Ok((0, FREE)));
    for words in [MOVE_WORDS - 1, MOVE_WORDS + 1] {
        assert_eq!(back(last.0, last.1, words), refused(31, 0));
    }
    assert_eq!(back(last.0 + 1, last.1, MOVE_WORDS), refused(31, 0));
    assert_eq!(back(last.0, last.1 + 1, MOVE_WORDS), refused(31, 0));
}

/// So many VCPU rows and task rows: a colour for each VCPU, and two tasks on it.
fn rows(vcpus: usize, tasks: usize) -> Result<(), Refusal> {
    let vcpu = |row: usize| Vcpu {
        core: row as u32 % 4,
        domain: row as u32 / 2,
        period: 1000,
        budget: 250,
    };
    let task = |row: usize| Task {
        vcpu: row as u32 / 2,
        period: 100_000,
        deadline: 100_000,
        set: 1 << (row / 2),
        costs: [100; COLOURS],
    };
    let vcpu_rows: Vec<Vcpu> = (0..vcpus).map(vcpu).collect();
    let task_rows: Vec<Task> = (0..tasks).map(task).collect();
    let mut times = vec![0; vcpus + tasks];
    let mut rounds = times.clone();
    let (vcpus, tasks) = (Vcpu::words(&vcpu_rows), Task::words(&task_rows));
    admit_plan(&most_domains(), 0, vcpus, tasks, &mut times, &mut rounds)
}

#[test]
fn limits_of_a_plan() {
    assert_eq!(rows(VCPUS, TASKS), Ok(()));
    assert_eq!(rows(VCPUS + 1, TASKS), refused(15, 0));
    assert_eq!(rows(VCPUS, TASKS + 1), refused(16, 0));
}

/// Two VCPUs with a task each; every field is refused in another's place.
#[test]
fn fields_of_rows() {
    let board = Board::new(16, 8, &[0x00FF, 0xFF00]);
    let costs = std::array::from_fn(|i| 100 * (16 - i as u32));
    let vcpus = [
        Vcpu {
            core: 0,
            domain: 0,
            period: 10_000,
            budget: 10_000,
        },
        Vcpu {
            core: 3,
            domain: 1,
            period: 9000,
            budget: 8000,
        },
    ];
    let tasks = [
        Task {
            vcpu: 0,
            period: 7000,
            deadline: 6000,
            set: 0x3,
            costs,
        },
        Task {
            vcpu: 1,
            period: 20_000,
            deadline: 15_000,
            set: 0x100,
            costs,
        },
    ];
    let (vcpu_words, task_words) = (Vcpu::words(&vcpus), Task::words(&tasks));
    assert_eq!(vcpu_words, [0, 0, 10_000, 10_000, 3, 1, 9000, 8000]);
    assert_eq!(task_words[20..26], [1, 20_000, 15_000, 0x100, 1600, 1500]);
    let (mut times, mut rounds) = ([0; 4], [0; 4]);
    let admitted = admit_plan(&board, 0, vcpu_words, task_words, &mut times, &mut rounds);
    assert_eq!(admitted, Ok(()));
    assert_eq!(times, [10_000, 8000, 1500, 3600]);
    // no row has an earlier one on its core or VCPU: one round goes from 1 to the time, one stays there
    assert_eq!(rounds, [2; 4]);
    assert_eq!(part(task_words, 1), &task_words[TASK_WORDS..]);
    let mut admit =
        |vcpus: &[u32], tasks: &[u32]| admit_plan(&board, 0, vcpus, tasks, &mut times, &mut rounds);
    let short = admit(&vcpu_words[..VCPU_WORDS - 1], task_words);
    assert_eq!(short, refused(15, 0));
    let short = admit(vcpu_words, &task_words[..TASK_WORDS - 1]);
    assert_eq!(short, refused(16, 0));
    let one = admit(&vcpu_words[..VCPU_WORDS], &task_words[..TASK_WORDS]);
    assert_eq!(one, Ok(()));
}

/// Number, meaning and what the row names, from the table of docs/REFUSALS.md. A row of VCPUs or of tasks is
/// told by the meaning.
fn documented() -> Vec<(u32, String, RowNames)> {
    let page = include_str!("../../../docs/REFUSALS.md");
    let rows = page.lines().filter_map(|line| {
        let cells: Vec<&str> = line.split('|').map(str::trim).collect();
        let number = cells.get(1)?.parse().ok()?;
        let row_names = match *cells.get(3)? {
            "0" => RowNames::Nothing,
            names if names.contains("domain") => RowNames::Domain,
            names if names.contains("VCPU row") || names.contains("task") => {
                assert_eq!(names.contains("task"), meaning(number).contains("task"));
                RowNames::PlanRow
            }
            names => panic!("a row names {names}?"),
        };
        Some((number, cells[2].to_string(), row_names))
    });
    rows.collect()
}

/// What tells each meaning from the others, in words that the page has too.
const WORDS: [(u32, &[&str]); 27] = [
    (1, &["domains", "tasks", "input"]),
    (2, &["not 1, 2, 4, 8 or 16"]),
    (3, &["frame", "table", "0 or above 4,096"]),
    (4, &["domain count", "0 or above 8"]),
    (5, &["grant is empty", "a colour"]),
    (6, &["grant shares", "another"]),
    (7, &["active set is empty", "outside"]),
    (8, &["calling domain", "below"]),
    (9, &["set is empty, or has a colour outside the grant"]),
    (10, &["page", "index"]),
    (11, &["bleach", "outside the set"]),
    (12, &["free frames in the", "set"]),
    (13, &["move list", "three words", "each move"]),
    (14, &["page to release", "unmapped"]),
    (15, &["10,000", "vcpu words", "none, over 64 or no"]),
    (
        16,
        &["task words", "none, over 640 or no", "times", "rounds"],
    ),
    (17, &["field", "vcpu row", "range"]),
    (18, &["field or cost", "task row", "rule"]),
    (19, &["task row", "lower vcpu", "the row before"]),
    (20, &["task row", "shares a colour", "another vcpu"]),
    (21, &["vcpu has no time", "period"]),
    (22, &["task has no time", "deadline"]),
    (26, &["a quota of the board", "0 or above 4,096"]),
    (
        27,
        &["quota asked for is 0, above 4,096 or below the frames held"],
    ),
    (28, &["unmapped", "frames held are at or above the quota"]),
    (
        31,
        &[
            "no multiple of three words",
            "a page above 4,095",
            "a frame twice",
            "new frame lacks the domain's word for the page",
            "old frame is not a free frame of the former set",
        ],
    ),
    (
        32,
        &["frame of the domain would lie outside the former set"],
    ),
];

fn meaning(number: u32) -> String {
    Refusal { number, row: 0 }.meaning().to_lowercase()
}

#[test]
fn meanings_are_those_of_the_page() {
    let page = documented();
    let numbers: Vec<u32> = page.iter().map(|(number, ..)| *number).collect();
    assert_eq!(numbers, WORDS.map(|(number, _)| number));
    for ((number, text, _), (of, words)) in page.iter().zip(WORDS) {
        assert_eq!(*number, of);
        let (meaning, text) = (meaning(of), text.to_lowercase());
        for word in words {
            assert!(meaning.contains(word), "{of}: {meaning} without {word}");
            assert!(text.contains(word), "{of}: {text} without {word}");
        }
        let others = numbers.iter().copied().filter(|number| *number != of);
        let alike = |number| {
            words
                .iter()
                .all(|word| self::meaning(number).contains(word))
        };
        assert!(!{ others }.any(alike), "{of} is not told apart");
        // every number in the meaning stands on the page too
        let figures = meaning.split(|c: char| !c.is_ascii_digit() && c != ',');
        for figure in figures.map(|figure| figure.trim_matches(',')) {
            assert!(text.contains(figure), "{of}: {figure} is not in {text}");
        }
    }
}

#[test]
fn no_two_meanings_are_alike() {
    let meanings: BTreeSet<String> = WORDS.iter().map(|(number, _)| meaning(*number)).collect();
    assert_eq!(meanings.len(), WORDS.len());
    assert!(!meanings.contains(&meaning(0)));
    let listed = |number: &u32| WORDS.iter().any(|(of, _)| of == number);
    for number in (0..=99).chain([u32::MAX]).filter(|number| !listed(number)) {
        assert_eq!(meaning(number), meaning(0));
    }
}

#[test]
fn rows_name_what_the_page_says() {
    let page = documented();
    for number in (0..=40).chain([u32::MAX]) {
        let listed = page.iter().find(|(listed, ..)| *listed == number);
        let expected = listed.map_or(RowNames::Nothing, |(.., names)| *names);
        assert_eq!(row_names(number), expected, "{number}");
    }
}

/// A row that names something is shown, and how.
#[test]
fn rows_are_shown() {
    for number in 0..=40 {
        let refusal = Refusal { number, row: 77 };
        let shown = match row_names(number) {
            RowNames::Domain => ", domain 77: ",
            RowNames::PlanRow if refusal.meaning().contains("task") => ", task row 77: ",
            RowNames::PlanRow => ", VCPU row 77: ",
            RowNames::Nothing => ": ",
        };
        let expected = format!("refused {number}{shown}{}", refusal.meaning());
        assert_eq!(refusal.to_string(), expected);
    }
}
