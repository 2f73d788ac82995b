/*
 * A loader in small: it sees that the archive is its header's, asks for the colours of its cache, boots a
 * board with two guests, faults pages in, recolours a guest, sees that a guest's frames lie evenly over its
 * colours and that pages to copy go upwards, boots again with a quota that leaves frames for recolouring, and
 * once more to try a smaller colour set and take that back, and admits the plan of document 01, knowing beforehand
 * how many rounds that can take. It keeps a log of the guests' calls, and at the end of each boot's calls counts
 * each guest's frames from the log alone and in the table; a last boot shows the two where they differ. Each reply is
 * held against what document 01 says, the order of pages, the quota, the even use of colours, the rounds, the taking
 * back and the frames by the log against document 02, Nos. 4, 6, 7, 9, 10 and 14, and the exit status is 1 where one
 * differs, 2 with an archive of another interface.
 */
#include <stdio.h>

#include "juzvanec.h"

#define FRAMES 8u
#define VCPUS 1u
#define TASKS 2u
#define ROWS (VCPUS + TASKS)
#define MOVE_LIST_WORDS (JUZVANEC_MOVE_WORDS * FRAMES)
#define INPUT_WORDS (7u + VCPUS * JUZVANEC_VCPU_WORDS + TASKS * JUZVANEC_TASK_WORDS)
#define LOG_ENTRIES 32u /* no boot is followed by more calls */

static int differences = 0;

/* Counts and shows a number that is not the one expected. */
static void expect(const char *what, uint32_t got, uint32_t expected)
{
    if (got != expected) {
        printf("DIFFERENT: %s is %lu, not %lu\n", what, (unsigned long)got, (unsigned long)expected);
        differences++;
    }
}

static void show_cache(uint64_t bytes, uint64_t ways, uint32_t expected)
{
    uint32_t colours, row;
    uint32_t number = juzvanec_cache_colours(bytes, ways, &colours, &row);

    printf("cache of %lu bytes in %lu ways: ", (unsigned long)bytes, (unsigned long)ways);
    if (number == JUZVANEC_ANSWERED)
        printf("%lu colours\n", (unsigned long)colours);
    else
        printf("refused %lu\n", (unsigned long)number);
    expect("colours", colours, expected);
    expect("refusal", number, expected ? JUZVANEC_ANSWERED : JUZVANEC_REFUSED_COLOURS);
}

static void show_pages(void)
{
    uint32_t page, index, row;

    expect("layout", juzvanec_layout(16, 0x00F0, 6, &page, &row), JUZVANEC_ANSWERED);
    expect("bleach", juzvanec_bleach(16, 0x00F0, page, &index, &row), JUZVANEC_ANSWERED);
    printf("set 0x00F0 of 16: index 6 is page %lu and back %lu\n", (unsigned long)page,
           (unsigned long)index);
    expect("page", page, 22);
    expect("index", index, 6);
}

/*
 * The log: each call since the boot, the domain that made it, and what it was answered: look, whether the page is
 * mapped; fault, whether the frame is new; release, the frame; colours, the set; a quota call, the quota; recolour and
 * take back, the moves.
 */
enum call { CALL_LOOK, CALL_FAULT, CALL_RELEASE, CALL_COLOURS, CALL_RECOLOUR, CALL_SET_QUOTA, CALL_TAKE_BACK };
struct entry {
    uint32_t domain;
    enum call kind;
    uint32_t refusal; /* its number, or JUZVANEC_ANSWERED */
    uint32_t answer;
};
static struct entry entries[LOG_ENTRIES];
static uint32_t logged = 0;

static void log_call(uint32_t domain, enum call kind, uint32_t refusal, uint32_t answer)
{
    const struct entry entry = {domain, kind, refusal, answer};

    expect("calls that the log has no room for", logged < LOG_ENTRIES ? 0 : 1, 0);
    if (logged < LOG_ENTRIES)
        entries[logged++] = entry;
}

/* What a log says of a domain: the faults answered new and the accepted releases. Their difference is its frames. */
struct account {
    uint32_t given;
    uint32_t released;
};

/*
 * Goes by the entries alone. Passed over are other domains' calls, refused calls, faults answered old, and what is no
 * fault or release, with its moves: the domain holds as many frames after each of these as before.
 */
static struct account count_log(const struct entry *list, uint32_t length, uint32_t domain)
{
    struct account found = {0, 0};
    uint32_t i;

    for (i = 0; i < length; i++) {
        if (list[i].domain != domain || list[i].refusal != JUZVANEC_ANSWERED)
            continue;
        if (list[i].kind == CALL_FAULT && list[i].answer == 1)
            found.given++;
        if (list[i].kind == CALL_RELEASE)
            found.released++;
    }
    return found;
}

/* The frames with one of the domain's page words. */
static uint32_t count_table(const uint16_t *table, uint32_t domain)
{
    uint32_t frame, held = 0;

    for (frame = 0; frame < FRAMES; frame++)
        if (table[frame] >= JUZVANEC_PAGE_WORD(domain, 0) &&
            table[frame] <= JUZVANEC_PAGE_WORD(domain, JUZVANEC_LAST_PAGE))
            held++;
    return held;
}

/* The domain's frames by the first entries of the log, as many as `length` says, beside those in the table. */
static void show_account(uint32_t length, const uint16_t *table, uint32_t domain, uint32_t expected_by_log,
                         uint32_t expected_in_table)
{
    const struct account found = count_log(entries, length, domain);
    const long frames = (long)found.given - (long)found.released;
    const uint32_t held = count_table(table, domain);

    printf("domain %lu: log says %lu new, %lu released, so %ld %s; the table has %lu\n", (unsigned long)domain,
           (unsigned long)found.given, (unsigned long)found.released, frames, frames == 1 ? "frame" : "frames",
           (unsigned long)held);
    if (frames != (long)held)
        printf("differs: the table was written by something else, or the log has a gap\n");
    expect("frames by the log", (uint32_t)frames, expected_by_log);
    expect("frames in the table", held, expected_in_table);
}

/* Each domain has as many frames by the whole log as in the table: so many. */
static void show_accounts(const uint16_t *table, uint32_t expected_0, uint32_t expected_1)
{
    show_account(logged, table, 0, expected_0, expected_0);
    show_account(logged, table, 1, expected_1, expected_1);
}

/* Two guests with two colours each, all of them active, and the quotas at first; eight free frames, an empty log. */
static void boot(struct juzvanec_board *board, uint16_t *table)
{
    static const struct juzvanec_board booted = {
        4, FRAMES, 2, {0x3, 0xC}, {0x3, 0xC}, {JUZVANEC_FIRST_QUOTA, JUZVANEC_FIRST_QUOTA}};
    unsigned frame;

    *board = booted;
    for (frame = 0; frame < FRAMES; frame++)
        table[frame] = JUZVANEC_FREE;
    logged = 0;
}

/* A fault; the last number is 1 where the page gets a new frame, and 0 where it has one or is refused. */
static void show_any_fault(const struct juzvanec_board *board, uint16_t *table, uint32_t domain, uint32_t page,
                           uint32_t expected, uint32_t expected_frame, uint32_t expected_new)
{
    uint32_t is_new, frame, row;
    uint32_t number = juzvanec_fault(board, table, FRAMES, domain, page, &is_new, &frame, &row);

    log_call(domain, CALL_FAULT, number, is_new);
    printf("domain %lu faults page %lu: ", (unsigned long)domain, (unsigned long)page);
    if (number == JUZVANEC_ANSWERED)
        printf("%s frame %lu\n", is_new ? "new" : "old", (unsigned long)frame);
    else
        printf("refused %lu\n", (unsigned long)number);
    expect("refusal", number, expected);
    expect("frame", frame, expected_frame);
    expect("new", is_new, expected_new);
}

/* A fault that gets a new frame, or is refused. */
static void show_fault(const struct juzvanec_board *board, uint16_t *table, uint32_t domain,
                       uint32_t page, uint32_t expected, uint32_t expected_frame)
{
    show_any_fault(board, table, domain, page, expected, expected_frame, expected == JUZVANEC_ANSWERED);
}

static void show_look(const struct juzvanec_board *board, const uint16_t *table, uint32_t domain,
                      uint32_t page, uint32_t expected_mapped, uint32_t expected_frame)
{
    uint32_t mapped, frame, row;
    uint32_t number = juzvanec_look(board, table, FRAMES, domain, page, &mapped, &frame, &row);

    log_call(domain, CALL_LOOK, number, mapped);
    expect("refusal", number, JUZVANEC_ANSWERED);
    printf("domain %lu looks up page %lu: ", (unsigned long)domain, (unsigned long)page);
    if (mapped)
        printf("frame %lu\n", (unsigned long)frame);
    else
        printf("unmapped\n");
    expect("mapped", mapped, expected_mapped);
    expect("frame", frame, expected_frame);
}

static void show_table(const uint16_t *table, const uint16_t *expected)
{
    unsigned frame;

    printf("table");
    for (frame = 0; frame < FRAMES; frame++) {
        printf(" %u", (unsigned)table[frame]);
        expect("frame's word", table[frame], expected[frame]);
    }
    printf("\n");
}

/* A domain recolours, and the loader copies the pages, upwards as the moves stand in the list that is lent. */
static void show_moves(struct juzvanec_board *board, uint16_t *table, uint32_t domain, uint32_t new_set,
                       const uint16_t *expected, uint32_t expected_count, uint16_t moves[MOVE_LIST_WORDS])
{
    uint32_t count, set, quota, row, i;
    uint32_t number =
        juzvanec_recolour(board, table, FRAMES, domain, new_set, moves, MOVE_LIST_WORDS, &count, &row);

    log_call(domain, CALL_RECOLOUR, number, count);
    expect("refusal", number, JUZVANEC_ANSWERED);
    printf("domain %lu recolours to 0x%lx: moves %lu\n", (unsigned long)domain, (unsigned long)new_set,
           (unsigned long)count);
    expect("moves", count, expected_count);
    for (i = 0; i < count; i++) {
        const uint16_t *move = moves + JUZVANEC_MOVE_WORDS * i;

        printf("copy page %u from frame %u to frame %u\n", (unsigned)move[0], (unsigned)move[1],
               (unsigned)move[2]);
    }
    for (i = 0; i < JUZVANEC_MOVE_WORDS * expected_count; i++)
        expect("word of the moves", moves[i], expected[i]);
    number = juzvanec_colours(board, table, FRAMES, domain, &set, &quota, &row);
    log_call(domain, CALL_COLOURS, number, set);
    expect("refusal", number, JUZVANEC_ANSWERED);
    expect("active set", set, new_set);
    expect("board's set", board->active[domain], new_set);
    expect("quota", quota, board->quotas[domain]);
}

/* A recolouring that is not taken back. */
static void show_recolour(struct juzvanec_board *board, uint16_t *table, uint32_t domain, uint32_t new_set,
                          const uint16_t *expected, uint32_t expected_count)
{
    uint16_t moves[MOVE_LIST_WORDS];

    show_moves(board, table, domain, new_set, expected, expected_count, moves);
}

/* A release, and the same once more, which is refused. */
static void show_release(const struct juzvanec_board *board, uint16_t *table, uint32_t domain, uint32_t page,
                         uint32_t expected_frame)
{
    uint32_t frame, row;
    uint32_t number = juzvanec_release(board, table, FRAMES, domain, page, &frame, &row);

    log_call(domain, CALL_RELEASE, number, frame);
    expect("refusal", number, JUZVANEC_ANSWERED);
    printf("domain %lu releases page %lu: frame %lu\n", (unsigned long)domain, (unsigned long)page,
           (unsigned long)frame);
    expect("frame", frame, expected_frame);
    number = juzvanec_release(board, table, FRAMES, domain, page, &frame, &row);
    log_call(domain, CALL_RELEASE, number, frame);
    expect("refusal", number, JUZVANEC_REFUSED_UNMAPPED);
}

/*
 * Domain 1 holds frame 2 and takes frame 3, and on a tie frame 6, which has the lower colour again. It gives
 * back frames 2 and 3. The next page gets frame 3 and not the lowest free frame, 2: of that colour it holds
 * frame 6, and of colour 3 none.
 */
static void show_even_use(const struct juzvanec_board *board, uint16_t *table)
{
    show_fault(board, table, 1, 1, JUZVANEC_ANSWERED, 3);
    show_fault(board, table, 1, 2, JUZVANEC_ANSWERED, 6);
    show_release(board, table, 1, 0, 2);
    show_release(board, table, 1, 1, 3);
    show_fault(board, table, 1, 3, JUZVANEC_ANSWERED, 3);
}

/*
 * Domain 0 gives up colour 0 for colour 1. Its frames there are 0, for page 2, and 4, for page 1; they go to
 * frames 1 and 5, in this order. In the list page 1 stands first.
 */
static void show_page_order(struct juzvanec_board *board, uint16_t *table)
{
    static const uint16_t moves[2 * JUZVANEC_MOVE_WORDS] = {1, 4, 5, 2, 0, 1};
    static const uint16_t after[FRAMES] = {0, 3, 0, 4100, 0, 2, 4099};

    show_recolour(board, table, 0, 0x2, moves, 2);
    show_table(table, after);
}

/* Domain 1, the display guest, asks for a quota. */
static void show_set_quota(struct juzvanec_board *board, const uint16_t *table, uint32_t quota, uint32_t expected)
{
    uint32_t before = board->quotas[1], answer, row;
    uint32_t number = juzvanec_set_quota(board, table, FRAMES, 1, quota, &answer, &row);

    log_call(1, CALL_SET_QUOTA, number, answer);
    printf("domain 1 asks for a quota of %lu: ", (unsigned long)quota);
    if (number == JUZVANEC_ANSWERED)
        printf("quota %lu\n", (unsigned long)answer);
    else
        printf("refused %lu\n", (unsigned long)number);
    expect("refusal", number, expected);
    expect("answer", answer, number == JUZVANEC_ANSWERED ? quota : 0);
    expect("board's quota", board->quotas[1], number == JUZVANEC_ANSWERED ? quota : before);
}

/* What domain 1 is told of its colours and quota; the loader may keep the set. */
static uint32_t show_colours(const struct juzvanec_board *board, const uint16_t *table, uint32_t expected_set,
                             uint32_t expected_quota)
{
    uint32_t set, quota, row;
    uint32_t number = juzvanec_colours(board, table, FRAMES, 1, &set, &quota, &row);

    log_call(1, CALL_COLOURS, number, set);
    expect("refusal", number, JUZVANEC_ANSWERED);
    printf("domain 1 has colours 0x%lx and quota %lu\n", (unsigned long)set, (unsigned long)quota);
    expect("active set", set, expected_set);
    expect("quota", quota, expected_quota);
    return set;
}

/*
 * The display guest is to give up colour 3 later. Its colours have four frames, 2 and 6 of colour 2, 3 and 7 of
 * colour 3; with pages in all of them none could move. With a quota of two it gets frames 2 and 3, and frame 6 is
 * left for the page in frame 3. A page that it has is answered at the quota too, and no quota goes below its pages.
 */
static void show_quota(void)
{
    static const uint16_t move[JUZVANEC_MOVE_WORDS] = {1, 3, 6};
    static const uint16_t after[FRAMES] = {0, 0, JUZVANEC_PAGE_WORD(1, 0), 0, 0, 0, JUZVANEC_PAGE_WORD(1, 1)};
    struct juzvanec_board board;
    uint16_t table[FRAMES];

    boot(&board, table);
    show_colours(&board, table, 0xC, JUZVANEC_FIRST_QUOTA);
    show_set_quota(&board, table, 2, JUZVANEC_ANSWERED);
    show_fault(&board, table, 1, 0, JUZVANEC_ANSWERED, 2);
    show_fault(&board, table, 1, 1, JUZVANEC_ANSWERED, 3);
    show_fault(&board, table, 1, 2, JUZVANEC_REFUSED_AT_QUOTA, 0);
    show_any_fault(&board, table, 1, 1, JUZVANEC_ANSWERED, 3, 0);
    show_set_quota(&board, table, 1, JUZVANEC_REFUSED_NEW_QUOTA);
    show_recolour(&board, table, 1, 0x4, move, 1);
    show_table(table, after);
    show_colours(&board, table, 0x4, 2);
    show_accounts(table, 0, 2); /* pages 0 and 1 of domain 1, one of them old later and moved */
}

/* Domain 1 takes so many moves back to a set, and the loader copies the pages back: from the new to the old frame. */
static void show_take_back(struct juzvanec_board *board, uint16_t *table, uint32_t set, const uint16_t *moves,
                           uint32_t move_count, uint32_t expected)
{
    uint32_t count, row, i;
    uint32_t number = juzvanec_take_back(board, table, FRAMES, 1, set, moves, JUZVANEC_MOVE_WORDS * move_count,
                                         &count, &row);

    log_call(1, CALL_TAKE_BACK, number, count);
    printf("domain 1 takes %lu moves back to 0x%lx: ", (unsigned long)move_count, (unsigned long)set);
    if (number == JUZVANEC_ANSWERED)
        printf("moves %lu\n", (unsigned long)count);
    else
        printf("refused %lu\n", (unsigned long)number);
    expect("refusal", number, expected);
    expect("moves", count, number == JUZVANEC_ANSWERED ? move_count : 0);
    for (i = 0; i < count; i++) {
        const uint16_t *move = moves + JUZVANEC_MOVE_WORDS * i;

        printf("copy page %u from frame %u to frame %u\n", (unsigned)move[0], (unsigned)move[2],
               (unsigned)move[1]);
    }
}

/*
 * The display guest has pages 7 and 1 in frames 2 and 6, both of colour 2, and is tried with colour 3 alone: its
 * frames go to 3 and 7. The former set is asked for before, and kept with the moves. Timed, it is too slow, and the
 * moves are taken back; what the other guest did meanwhile stays. A second time nothing is left to take back, and
 * with no moves the guest cannot have a set that its frames lie outside of.
 */
static void show_taking_back(void)
{
    static const uint16_t expected[2 * JUZVANEC_MOVE_WORDS] = {1, 6, 7, 7, 2, 3};
    static const uint16_t before[FRAMES] = {0, 0, JUZVANEC_PAGE_WORD(1, 7), 0, 0, 0, JUZVANEC_PAGE_WORD(1, 1)};
    static const uint16_t tried[FRAMES] = {
        JUZVANEC_PAGE_WORD(0, 9), 0, 0, JUZVANEC_PAGE_WORD(1, 7), 0, 0, 0, JUZVANEC_PAGE_WORD(1, 1)};
    static const uint16_t after[FRAMES] = {
        JUZVANEC_PAGE_WORD(0, 9), 0, JUZVANEC_PAGE_WORD(1, 7), 0, 0, 0, JUZVANEC_PAGE_WORD(1, 1)};
    struct juzvanec_board board;
    uint16_t table[FRAMES], moves[MOVE_LIST_WORDS];
    uint32_t former;

    boot(&board, table);
    show_fault(&board, table, 1, 7, JUZVANEC_ANSWERED, 2);
    show_fault(&board, table, 1, 5, JUZVANEC_ANSWERED, 3);
    show_fault(&board, table, 1, 1, JUZVANEC_ANSWERED, 6);
    show_release(&board, table, 1, 5, 3);
    show_table(table, before);
    former = show_colours(&board, table, 0xC, JUZVANEC_FIRST_QUOTA);
    show_moves(&board, table, 1, 0x8, expected, 2, moves);
    show_fault(&board, table, 0, 9, JUZVANEC_ANSWERED, 0);
    show_table(table, tried);
    show_take_back(&board, table, former, moves, 2, JUZVANEC_ANSWERED);
    show_table(table, after);
    show_colours(&board, table, 0xC, JUZVANEC_FIRST_QUOTA);
    show_look(&board, table, 1, 1, 1, 6);
    show_look(&board, table, 1, 7, 1, 2);
    show_take_back(&board, table, former, moves, 2, JUZVANEC_REFUSED_TRIPLES);
    show_take_back(&board, table, 0x8, moves, 0, JUZVANEC_REFUSED_LEFT_OUTSIDE);
    show_take_back(&board, table, former, moves, 0, JUZVANEC_ANSWERED);
    show_accounts(table, 1, 2); /* page 9; pages 7, 5 and 1 less 5, whatever went there and back */
}

/*
 * What service staff see where the two differ. Domain 1 has had three pages new and released one. A page word that
 * something else wrote is a frame more in the table, and a log without its last entry, the fault of page 2, says a
 * frame less.
 */
static void show_difference(void)
{
    struct juzvanec_board board;
    uint16_t table[FRAMES];

    boot(&board, table);
    show_fault(&board, table, 1, 0, JUZVANEC_ANSWERED, 2);
    show_fault(&board, table, 1, 1, JUZVANEC_ANSWERED, 3);
    show_release(&board, table, 1, 0, 2);
    show_fault(&board, table, 1, 2, JUZVANEC_ANSWERED, 2);
    show_accounts(table, 0, 2);
    table[7] = JUZVANEC_PAGE_WORD(1, 9);
    printf("something else writes %u to frame 7\n", (unsigned)table[7]);
    show_account(logged, table, 1, 2, 3);
    table[7] = JUZVANEC_FREE;
    printf("frame 7 is free again, and the log loses its last entry\n");
    show_account(logged - 1u, table, 1, 1, 2);
}

static void show_frames(void)
{
    /* domain 0 gives up colour 1, where it has one frame */
    static const uint16_t move[JUZVANEC_MOVE_WORDS] = {1, 1, 4};
    static const uint16_t booted[FRAMES] = {JUZVANEC_PAGE_WORD(0, 9), JUZVANEC_PAGE_WORD(0, 1),
                                            JUZVANEC_PAGE_WORD(1, 0)};
    static const uint16_t recoloured[FRAMES] = {10, 0, 4097, 0, 2};
    struct juzvanec_board board;
    uint16_t table[FRAMES];

    boot(&board, table);
    show_fault(&board, table, 0, 9, JUZVANEC_ANSWERED, 0);
    show_fault(&board, table, 1, 0, JUZVANEC_ANSWERED, 2);
    show_fault(&board, table, 0, 1, JUZVANEC_ANSWERED, 1);
    show_table(table, booted);
    show_recolour(&board, table, 0, 0x1, move, 1);
    show_table(table, recoloured);
    show_look(&board, table, 0, 1, 1, 4);
    show_look(&board, table, 1, 1, 0, 0);
    show_fault(&board, table, 0, 2, JUZVANEC_REFUSED_NO_FRAME, 0);
    show_release(&board, table, 0, 9, 0);
    show_fault(&board, table, 0, 2, JUZVANEC_ANSWERED, 0);
    show_even_use(&board, table);
    show_page_order(&board, table);
    show_accounts(table, 2, 2); /* pages 9, 1 and 2 less 9; pages 0, 1, 2 and 3 less 0 and 1 */
}

/* The plan of the program `admit` in document 01: one guest, a VCPU and two tasks. */
static const struct juzvanec_board plan_board = {16, 64, 1, {255}, {255}, {JUZVANEC_FIRST_QUOTA}};
static const uint32_t reload = 100;
static const struct juzvanec_vcpu vcpus[VCPUS] = {{0, 0, 10000, 10000}};
static struct juzvanec_task tasks[TASKS] = {{0, 4000, 4000, 0x3, {0}}, {0, 10000, 10000, 0x6, {0}}};

/* The same costs whatever the number of colours. */
static void fill_costs(void)
{
    unsigned colour;

    for (colour = 0; colour < JUZVANEC_MOST_COLOURS; colour++) {
        tasks[0].costs[colour] = 1000;
        tasks[1].costs[colour] = 3000;
    }
}

/* Admits the plan with lists of so many times and rounds. */
static uint32_t admit_plan(uint32_t *times, size_t times_words, uint32_t *rounds, size_t rounds_words)
{
    uint32_t row;

    return juzvanec_admit_plan(&plan_board, reload, juzvanec_vcpus_as_words(vcpus),
                               VCPUS * JUZVANEC_VCPU_WORDS, juzvanec_tasks_as_words(tasks),
                               TASKS * JUZVANEC_TASK_WORDS, times, times_words, rounds, rounds_words, &row);
}

/*
 * The rounds that an earlier row may add to a search: the deadline over its period, rounded up, less 1. In
 * sound rows neither is 0.
 */
static uint32_t added(uint32_t deadline, uint32_t period)
{
    return (deadline - 1u) / period;
}

/*
 * The most rounds of each row, VCPUs and then tasks. They are known before admission, and hold of a plan
 * that is late too.
 */
static void fill_most(uint32_t *most)
{
    uint32_t i, j;

    for (i = 0; i < ROWS; i++)
        most[i] = 2;
    for (i = 0; i < VCPUS; i++)
        for (j = 0; j < i; j++)
            if (vcpus[j].core == vcpus[i].core)
                most[i] += added(vcpus[i].period, vcpus[j].period);
    for (i = 0; i < TASKS; i++)
        for (j = 0; j < i; j++)
            if (tasks[j].vcpu == tasks[i].vcpu)
                most[VCPUS + i] += added(tasks[i].deadline, tasks[j].period);
}

/* The time of a VCPU or task, and the rounds in which it was found. */
static void show_time(uint32_t at, uint32_t time, uint32_t rounds, uint32_t most)
{
    printf("%s %lu: time %lu, rounds %lu of at most %lu\n", at < VCPUS ? "VCPU" : "task",
           (unsigned long)(at < VCPUS ? at : at - VCPUS), (unsigned long)time, (unsigned long)rounds,
           (unsigned long)most);
}

static void show_plan(void)
{
    static const uint32_t expected_times[ROWS] = {10000, 1000, 5200};
    /* task 1: the need is 4,100 in 1, and with two arrivals of task 0 5,200 in 4,100 and in 5,200 */
    static const uint32_t expected_rounds[ROWS] = {2, 2, 3};
    static const uint32_t expected_most[ROWS] = {2, 2, 4};
    uint32_t times[ROWS] = {0}, rounds[ROWS] = {0}, most[ROWS];
    uint32_t number, i, all = 0, most_in_all = 0;
    size_t start, length;

    juzvanec_part(juzvanec_tasks_as_words(tasks), TASKS * JUZVANEC_TASK_WORDS, 0, &start, &length);
    printf("part of VCPU 0: words %lu to %lu\n", (unsigned long)start, (unsigned long)(start + length));
    expect("part", (uint32_t)(start + length), 40);
    fill_most(most);
    for (i = 0; i < ROWS; i++)
        most_in_all += most[i];
    printf("admission takes at most %lu rounds\n", (unsigned long)most_in_all);
    expect("refusal", admit_plan(times, ROWS, rounds, ROWS), JUZVANEC_ANSWERED);
    for (i = 0; i < ROWS; i++) {
        show_time(i, times[i], rounds[i], most[i]);
        expect("time", times[i], expected_times[i]);
        expect("rounds", rounds[i], expected_rounds[i]);
        expect("most rounds", most[i], expected_most[i]);
        all += rounds[i];
    }
    printf("it took %lu\n", (unsigned long)all);
    number = admit_plan(times, ROWS - 1u, rounds, ROWS);
    printf("with a list of two times: refused %lu\n", (unsigned long)number);
    expect("refusal", number, JUZVANEC_REFUSED_TASK_WORDS);
    number = admit_plan(times, ROWS, rounds, ROWS - 1u);
    printf("with a list of two rounds: refused %lu\n", (unsigned long)number);
    expect("refusal", number, JUZVANEC_REFUSED_TASK_WORDS);
}

/* Appends words as the bytes that the program `admit` reads, whatever the byte order here. */
static uint8_t *append(uint8_t *end, const uint32_t *words, size_t count)
{
    size_t i;

    for (i = 0; i < 4 * count; i++)
        *end++ = (uint8_t)(words[i / 4] >> 8 * (i % 4));
    return end;
}

/* The same plan through the program `admit`, and once cut short; it has a text for both. */
static void show_admit(void)
{
    const uint32_t head[6] = {plan_board.colours,   plan_board.frames, plan_board.domains,
                              plan_board.grants[0], reload,            VCPUS};
    const uint32_t count = TASKS;
    uint8_t input[4 * INPUT_WORDS], text[JUZVANEC_TEXT_BYTES];
    uint32_t length, taken, row;
    uint8_t *end = append(input, head, 6);

    end = append(end, juzvanec_vcpus_as_words(vcpus), VCPUS * JUZVANEC_VCPU_WORDS);
    end = append(end, &count, 1);
    end = append(end, juzvanec_tasks_as_words(tasks), TASKS * JUZVANEC_TASK_WORDS);
    expect("input", (uint32_t)(end - input), sizeof input);
    expect("refusal", juzvanec_admit(input, sizeof input, text, &length, &taken, &row),
           JUZVANEC_ANSWERED);
    fwrite(text, 1, length, stdout);
    expect("words", taken, INPUT_WORDS);
    expect("refusal", juzvanec_admit(input, sizeof input - 4, text, &length, &taken, &row),
           JUZVANEC_REFUSED_INPUT);
    fwrite(text, 1, length, stdout);
    expect("words", taken, 0);
}

int main(void)
{
    if (juzvanec_interface() != JUZVANEC_INTERFACE) {
        printf("the archive has interface %lu, the header %lu\n", (unsigned long)juzvanec_interface(),
               (unsigned long)JUZVANEC_INTERFACE);
        return 2;
    }
    show_cache(1048576, 16, 16);
    show_cache(2097152, 16, 0);
    show_pages();
    show_frames();
    show_quota();
    show_taking_back();
    show_difference();
    fill_costs();
    show_plan();
    show_admit();
    return differences != 0;
}
