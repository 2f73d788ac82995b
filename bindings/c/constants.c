/*
 * Holds every constant and every struct of the header against the library: a limit is accepted and the
 * number past it refused, a refusal's name is the number of a call that is refused so, and a word or field
 * of a row is told from the others by values that are right in their places alone. RATTLE_TEXT_BYTES and
 * RATTLE_BOARD_WORDS are the lengths in the library's source, which no call can show.
 * The exit status is 1 where something differs.
 */
#include <stdio.h>
#include <string.h>

#include "juzvanec.h"

static int differences;

static void expect(int line, const char *what, uint64_t got, uint64_t expected)
{
    if (got != expected) {
        printf("line %d: %s is %lu, not %lu\n", line, what, (unsigned long)got, (unsigned long)expected);
        differences++;
    }
}

#define EXPECT(got, expected) expect(__LINE__, #got, (got), (expected))
/* A call is refused so, and the row is this one. */
#define REFUSED(got, number, at) (EXPECT(got, number), EXPECT(row, at))
#define ANSWERED(got) REFUSED(got, JUZVANEC_ANSWERED, 0)

/* What calls tell, and rubbish before. */
static uint32_t row, first, second;

/* The lists have room for what is past every limit. */
static struct juzvanec_board board;
static uint16_t table[8192], moves[64];
static uint32_t vcpus[256], tasks[1024], times[64], rounds[64], reload;
static size_t vcpu_words, task_words, times_words, rounds_words;

static uint32_t layout(uint32_t colours, uint32_t set, uint32_t index)
{
    return juzvanec_layout(colours, set, index, &first, &row);
}

static uint32_t bleach(uint32_t colours, uint32_t set, uint32_t page)
{
    return juzvanec_bleach(colours, set, page, &first, &row);
}

static uint32_t look(uint32_t domain, uint32_t page)
{
    return juzvanec_look(&board, table, board.frames, domain, page, &first, &second, &row);
}

static uint32_t fault(uint32_t domain, uint32_t page)
{
    return juzvanec_fault(&board, table, board.frames, domain, page, &first, &second, &row);
}

static uint32_t release(uint32_t domain, uint32_t page)
{
    return juzvanec_release(&board, table, board.frames, domain, page, &first, &row);
}

static uint32_t colours(uint32_t domain)
{
    return juzvanec_colours(&board, table, board.frames, domain, &first, &second, &row);
}

static uint32_t set_quota(uint32_t domain, uint32_t quota)
{
    return juzvanec_set_quota(&board, table, board.frames, domain, quota, &first, &row);
}

static uint32_t recolour(uint32_t domain, uint32_t set, size_t move_words)
{
    return juzvanec_recolour(&board, table, board.frames, domain, set, moves, move_words, &first, &row);
}

static uint32_t take_back(uint32_t domain, uint32_t set, size_t move_words)
{
    return juzvanec_take_back(&board, table, board.frames, domain, set, moves, move_words, &first, &row);
}

static uint32_t admit_plan(void)
{
    return juzvanec_admit_plan(&board, reload, vcpus, vcpu_words, tasks, task_words, times, times_words, rounds,
                               rounds_words, &row);
}

static void fill_table(uint16_t word)
{
    size_t frame;

    for (frame = 0; frame < sizeof table / sizeof *table; frame++)
        table[frame] = word;
}

/* Two guests that use a part of their grants, and free frames. Each field is refused in another's place. */
static void boot(void)
{
    uint32_t domain;

    memset(&board, 0, sizeof board);
    board.colours = 4;
    board.frames = 8;
    board.domains = 2;
    board.grants[0] = 0x3;
    board.grants[1] = 0xC;
    board.active[0] = 0x1;
    board.active[1] = 0x8;
    for (domain = 0; domain < JUZVANEC_MOST_DOMAINS; domain++)
        board.quotas[domain] = JUZVANEC_FIRST_QUOTA;
    fill_table(JUZVANEC_FREE);
}

/* As many guests as there may be, with two colours each, one of them active. */
static void boot_most(void)
{
    uint32_t domain;

    boot();
    board.colours = JUZVANEC_MOST_COLOURS;
    board.domains = JUZVANEC_MOST_DOMAINS;
    for (domain = 0; domain < JUZVANEC_MOST_DOMAINS; domain++) {
        board.grants[domain] = 3u << 2 * domain;
        board.active[domain] = 1u << 2 * domain;
    }
    board.frames = JUZVANEC_MOST_COLOURS;
}

static void test_pages(void)
{
    ANSWERED(juzvanec_cache_colours(5u * 8u * JUZVANEC_PAGE_BYTES, 5, &first, &row));
    EXPECT(first, 8);
    REFUSED(juzvanec_cache_colours(8u * JUZVANEC_PAGE_BYTES + 1u, 1, &first, &row), JUZVANEC_REFUSED_COLOURS, 0);
    ANSWERED(layout(JUZVANEC_MOST_COLOURS, 1, 0));
    REFUSED(layout(JUZVANEC_MOST_COLOURS + 1u, 1, 0), JUZVANEC_REFUSED_COLOURS, 0);
    REFUSED(layout(2u * JUZVANEC_MOST_COLOURS, 1, 0), JUZVANEC_REFUSED_COLOURS, 0);
    REFUSED(layout(4, 0x10, 0), JUZVANEC_REFUSED_SET, 0);
    ANSWERED(layout(16, 0x8000, JUZVANEC_LAST_INDEX));
    EXPECT(first, JUZVANEC_LAST_BLEACHED);
    REFUSED(layout(16, 0x8000, JUZVANEC_LAST_INDEX + 1u), JUZVANEC_REFUSED_PAGE, 0);
    ANSWERED(bleach(16, 0x8000, JUZVANEC_LAST_BLEACHED));
    EXPECT(first, JUZVANEC_LAST_INDEX);
    REFUSED(bleach(16, 0x8000, JUZVANEC_LAST_BLEACHED + 1u), JUZVANEC_REFUSED_PAGE, 0);
    REFUSED(bleach(16, 0x8000, 14), JUZVANEC_REFUSED_OUTSIDE_SET, 0);
}

static void test_board(void)
{
    uint32_t domain;

    EXPECT(JUZVANEC_BOARD_WORDS, RATTLE_BOARD_WORDS);
    boot();
    ANSWERED(colours(0));
    EXPECT(first, 0x1);
    EXPECT(second, JUZVANEC_FIRST_QUOTA);
    boot_most();
    for (domain = 0; domain < JUZVANEC_MOST_DOMAINS; domain++) {
        board.quotas[domain] = 100u + domain;
        ANSWERED(colours(domain));
        EXPECT(first, board.active[domain]);
        EXPECT(second, 100u + domain);
    }
    REFUSED(colours(JUZVANEC_MOST_DOMAINS), JUZVANEC_REFUSED_CALLER, 0);
    board.domains = JUZVANEC_MOST_DOMAINS + 1u;
    REFUSED(colours(0), JUZVANEC_REFUSED_DOMAINS, 0);
    boot();
    board.frames = JUZVANEC_MOST_FRAMES;
    ANSWERED(colours(0));
    board.frames = JUZVANEC_MOST_FRAMES + 1u;
    REFUSED(colours(0), JUZVANEC_REFUSED_FRAMES, 0);
    for (domain = 0; domain < JUZVANEC_MOST_DOMAINS; domain++) {
        boot_most();
        board.grants[domain] = 0;
        REFUSED(colours(0), JUZVANEC_REFUSED_GRANT, domain);
        boot_most();
        board.active[domain] ^= 0xFFFF;
        REFUSED(colours(0), JUZVANEC_REFUSED_ACTIVE, domain);
        boot_most();
        board.quotas[domain] = 0;
        REFUSED(colours(0), JUZVANEC_REFUSED_QUOTA, 0);
        board.quotas[domain] = JUZVANEC_MOST_QUOTA;
        ANSWERED(colours(0));
        board.quotas[domain] = JUZVANEC_MOST_QUOTA + 1u;
        REFUSED(colours(0), JUZVANEC_REFUSED_QUOTA, 0);
    }
    boot();
    board.grants[1] |= 0x1;
    REFUSED(colours(0), JUZVANEC_REFUSED_SHARED_GRANT, 0);
    boot();
    board.colours = 3;
    REFUSED(colours(0), JUZVANEC_REFUSED_COLOURS, 0);
}

static void test_table(void)
{
    uint32_t domain;

    boot_most();
    for (domain = 0; domain < JUZVANEC_MOST_DOMAINS; domain++) {
        ANSWERED(fault(domain, 16u * domain));
        EXPECT(first, 1);
        EXPECT(second, 2u * domain);
        EXPECT(table[second], JUZVANEC_PAGE_WORD(domain, 16u * domain));
        ANSWERED(release(domain, 16u * domain));
        EXPECT(table[first], JUZVANEC_FREE);
        table[3] = JUZVANEC_PAGE_WORD(domain, JUZVANEC_LAST_PAGE);
        ANSWERED(look(domain, JUZVANEC_LAST_PAGE));
        EXPECT(first, 1);
        EXPECT(second, 3);
    }
    REFUSED(look(0, JUZVANEC_LAST_PAGE + 1u), JUZVANEC_REFUSED_PAGE, 0);
    REFUSED(fault(0, JUZVANEC_LAST_PAGE + 1u), JUZVANEC_REFUSED_PAGE, 0);
    REFUSED(release(0, JUZVANEC_LAST_PAGE + 1u), JUZVANEC_REFUSED_PAGE, 0);
    REFUSED(release(0, 5), JUZVANEC_REFUSED_UNMAPPED, 0);
    /* words that nobody holds are alike to the calls: the reserved one is the last of 16 bits */
    EXPECT(JUZVANEC_RESERVED, UINT16_MAX);
    fill_table(JUZVANEC_RESERVED);
    REFUSED(fault(0, 0), JUZVANEC_REFUSED_NO_FRAME, 0);
}

/* A domain's quota is the field of its number, and no other field changes. */
static void test_quotas(void)
{
    struct juzvanec_board before;
    uint32_t domain;

    boot_most();
    for (domain = 0; domain < JUZVANEC_MOST_DOMAINS; domain++) {
        before = board;
        before.quotas[domain] = 1;
        ANSWERED(set_quota(domain, 1));
        EXPECT(first, 1);
        EXPECT(memcmp(&board, &before, sizeof board) != 0, 0);
        ANSWERED(fault(domain, 5));
        before = board;
        REFUSED(fault(domain, 6), JUZVANEC_REFUSED_AT_QUOTA, 0);
        REFUSED(set_quota(domain, 0), JUZVANEC_REFUSED_NEW_QUOTA, 0);
        REFUSED(set_quota(domain, JUZVANEC_MOST_QUOTA + 1u), JUZVANEC_REFUSED_NEW_QUOTA, 0);
        EXPECT(memcmp(&board, &before, sizeof board) != 0, 0);
        ANSWERED(set_quota(domain, JUZVANEC_MOST_QUOTA));
        EXPECT(first, board.quotas[domain]);
    }
    REFUSED(set_quota(JUZVANEC_MOST_DOMAINS, 1), JUZVANEC_REFUSED_CALLER, 0);
}

static void test_recolour(void)
{
    boot();
    ANSWERED(fault(0, 9));
    memset(moves, 0x77, sizeof moves);
    REFUSED(recolour(0, 0x2, JUZVANEC_MOVE_WORDS - 1u), JUZVANEC_REFUSED_MOVE_LIST, 0);
    REFUSED(recolour(0, 0x4, JUZVANEC_MOVE_WORDS), JUZVANEC_REFUSED_SET, 0);
    EXPECT(moves[0], 0x7777);
    ANSWERED(recolour(0, 0x2, JUZVANEC_MOVE_WORDS));
    EXPECT(first, 1);
    EXPECT(board.active[0], 0x2);
    EXPECT(moves[0], 9);
    EXPECT(moves[1], 0);
    EXPECT(moves[2], 1);
    EXPECT(moves[JUZVANEC_MOVE_WORDS], 0x7777);
}

/* One triple, for which the new frame has the domain's word, if there is such a page and frame. */
static void put_move(uint32_t domain, uint32_t page, uint32_t old_frame, uint32_t new_frame)
{
    boot_most();
    moves[0] = (uint16_t)page;
    moves[1] = (uint16_t)old_frame;
    moves[2] = (uint16_t)new_frame;
    table[new_frame] = JUZVANEC_PAGE_WORD(domain, page);
}

/* Each domain's active set is the field of its number, and no other field changes. */
static void test_take_back(void)
{
    struct juzvanec_board before;
    uint16_t list[64];
    uint32_t domain, set;

    for (domain = 0; domain < JUZVANEC_MOST_DOMAINS; domain++) {
        /* from the active colour to the other one of the grant */
        set = 2u << 2u * domain;
        put_move(domain, JUZVANEC_LAST_PAGE, 2u * domain + 1u, 2u * domain);
        before = board;
        memcpy(list, moves, sizeof list);
        REFUSED(take_back(domain, set, JUZVANEC_MOVE_WORDS - 1u), JUZVANEC_REFUSED_TRIPLES, 0);
        REFUSED(take_back(domain, set, JUZVANEC_MOVE_WORDS + 1u), JUZVANEC_REFUSED_TRIPLES, 0);
        REFUSED(take_back(domain, set, 0), JUZVANEC_REFUSED_LEFT_OUTSIDE, 0);
        REFUSED(take_back(domain, 0, JUZVANEC_MOVE_WORDS), JUZVANEC_REFUSED_SET, 0);
        REFUSED(take_back(JUZVANEC_MOST_DOMAINS, set, JUZVANEC_MOVE_WORDS), JUZVANEC_REFUSED_CALLER, 0);
        EXPECT(first, 0);
        EXPECT(memcmp(&board, &before, sizeof board) != 0, 0);
        EXPECT(table[2u * domain], JUZVANEC_PAGE_WORD(domain, JUZVANEC_LAST_PAGE));
        ANSWERED(take_back(domain, set, JUZVANEC_MOVE_WORDS));
        EXPECT(first, 1);
        EXPECT(table[2u * domain], JUZVANEC_FREE);
        EXPECT(table[2u * domain + 1u], JUZVANEC_PAGE_WORD(domain, JUZVANEC_LAST_PAGE));
        before.active[domain] = set;
        EXPECT(memcmp(&board, &before, sizeof board) != 0, 0);
        EXPECT(memcmp(list, moves, sizeof list) != 0, 0);
        REFUSED(take_back(domain, set, JUZVANEC_MOVE_WORDS), JUZVANEC_REFUSED_TRIPLES, 0);
        ANSWERED(take_back(domain, set, 0));
        EXPECT(first, 0);
        put_move(domain, JUZVANEC_LAST_PAGE + 1u, 2u * domain + 1u, 2u * domain);
        REFUSED(take_back(domain, set, JUZVANEC_MOVE_WORDS), JUZVANEC_REFUSED_TRIPLES, 0);
        put_move(domain, 5, board.frames + 2u * domain + 1u, 2u * domain);
        REFUSED(take_back(domain, set, JUZVANEC_MOVE_WORDS), JUZVANEC_REFUSED_TRIPLES, 0);
    }
}

/* A VCPU row by the numbers of its words; whatever they leave out stays rubbish. */
static void put_vcpu(uint32_t at, uint32_t core, uint32_t domain, uint32_t period, uint32_t budget)
{
    uint32_t *words = vcpus + JUZVANEC_VCPU_WORDS * at;

    words[JUZVANEC_VCPU_CORE] = core;
    words[JUZVANEC_VCPU_DOMAIN] = domain;
    words[JUZVANEC_VCPU_PERIOD] = period;
    words[JUZVANEC_VCPU_BUDGET] = budget;
}

/* A task row likewise; with k colours it costs 100 * (17 - k). */
static void put_task(uint32_t at, uint32_t vcpu, uint32_t period, uint32_t deadline, uint32_t set)
{
    uint32_t *words = tasks + JUZVANEC_TASK_WORDS * at;
    uint32_t i;

    words[JUZVANEC_TASK_VCPU] = vcpu;
    words[JUZVANEC_TASK_PERIOD] = period;
    words[JUZVANEC_TASK_DEADLINE] = deadline;
    words[JUZVANEC_TASK_SET] = set;
    for (i = 0; i < JUZVANEC_MOST_COLOURS; i++)
        words[JUZVANEC_TASK_COSTS + i] = 100u * (16u - i);
}

/* Two VCPUs with a task each. Each word of a row is refused in another's place. */
static void plan(void)
{
    boot();
    board.colours = 16;
    board.grants[0] = board.active[0] = 0x00FF;
    board.grants[1] = board.active[1] = 0xFF00;
    reload = 0;
    memset(vcpus, 0xFF, sizeof vcpus);
    memset(tasks, 0xFF, sizeof tasks);
    memset(times, 0xFF, sizeof times);
    memset(rounds, 0xFF, sizeof rounds);
    put_vcpu(0, 0, 0, 10000, 10000);
    put_vcpu(1, 3, 1, 9000, 8000);
    put_task(0, 0, 7000, 6000, 0x3);
    put_task(1, 1, 20000, 15000, 0x100);
    vcpu_words = 2u * JUZVANEC_VCPU_WORDS;
    task_words = 2u * JUZVANEC_TASK_WORDS;
    times_words = rounds_words = 5; /* one more than the rows */
}

/* As many VCPUs and tasks as there may be: a colour for each VCPU, and two tasks on it. */
static void most_rows(void)
{
    uint32_t at;

    plan();
    boot_most();
    for (at = 0; at < JUZVANEC_MOST_DOMAINS; at++)
        board.active[at] = board.grants[at];
    for (at = 0; at <= JUZVANEC_MOST_VCPUS; at++)
        put_vcpu(at, at % JUZVANEC_CORES, at / 2u, 1000, 250);
    for (at = 0; at <= JUZVANEC_MOST_TASKS; at++)
        put_task(at, at / 2u, 100000, 100000, 1u << at / 2u);
    vcpu_words = JUZVANEC_MOST_VCPUS * JUZVANEC_VCPU_WORDS;
    task_words = JUZVANEC_MOST_TASKS * JUZVANEC_TASK_WORDS;
    times_words = rounds_words = JUZVANEC_MOST_VCPUS + JUZVANEC_MOST_TASKS;
}

/*
 * The times of the plan above. No row has an earlier one on its core or its VCPU, so that its need is one
 * number, over 1: a round goes from 1 to the microsecond that covers it, and a second one stays there.
 */
static void expect_times(uint32_t vcpu, uint32_t task)
{
    size_t i;

    EXPECT(times[0], 10000);
    EXPECT(times[1], vcpu);
    EXPECT(times[2], 1500);
    EXPECT(times[3], task);
    for (i = 0; i < 4; i++)
        EXPECT(rounds[i], 2);
    EXPECT(times[4], UINT32_MAX);
    EXPECT(rounds[4], UINT32_MAX);
}

/* Neither list of the plan has been written to. */
static void expect_nothing_written(void)
{
    size_t i;

    for (i = 0; i < sizeof times / sizeof *times; i++) {
        EXPECT(times[i], UINT32_MAX);
        EXPECT(rounds[i], UINT32_MAX);
    }
}

static void test_lengths(void)
{
    size_t start, length;

    plan();
    ANSWERED(admit_plan());
    /* row 1: supply in t is t - 2,000 up to 9,000, and the cost with one colour is 1,600 */
    expect_times(8000, 3600);
    juzvanec_part(tasks, task_words, 1, &start, &length);
    EXPECT(start, JUZVANEC_TASK_WORDS);
    EXPECT(length, JUZVANEC_TASK_WORDS);
    vcpu_words = JUZVANEC_VCPU_WORDS - 1u;
    REFUSED(admit_plan(), JUZVANEC_REFUSED_VCPU_WORDS, 0);
    vcpu_words = JUZVANEC_VCPU_WORDS + 1u;
    REFUSED(admit_plan(), JUZVANEC_REFUSED_VCPU_WORDS, 0);
    plan();
    task_words = JUZVANEC_TASK_WORDS - 1u;
    REFUSED(admit_plan(), JUZVANEC_REFUSED_TASK_WORDS, 0);
    task_words = JUZVANEC_TASK_WORDS + 1u;
    REFUSED(admit_plan(), JUZVANEC_REFUSED_TASK_WORDS, 0);
    plan();
    times_words = 3;
    REFUSED(admit_plan(), JUZVANEC_REFUSED_TASK_WORDS, 0);
    expect_nothing_written();
    plan();
    rounds_words = 3;
    REFUSED(admit_plan(), JUZVANEC_REFUSED_TASK_WORDS, 0);
    expect_nothing_written();
    plan();
    memset(board.quotas, 0, sizeof board.quotas); /* which a plan does not ask for */
    reload = JUZVANEC_MOST_RELOAD;
    ANSWERED(admit_plan());
    reload = JUZVANEC_MOST_RELOAD + 1u;
    REFUSED(admit_plan(), JUZVANEC_REFUSED_VCPU_WORDS, 0);
    most_rows();
    ANSWERED(admit_plan());
    vcpu_words += JUZVANEC_VCPU_WORDS;
    times_words++;
    rounds_words++;
    REFUSED(admit_plan(), JUZVANEC_REFUSED_VCPU_WORDS, 0);
    most_rows();
    task_words += JUZVANEC_TASK_WORDS;
    times_words++;
    rounds_words++;
    REFUSED(admit_plan(), JUZVANEC_REFUSED_TASK_WORDS, 0);
}

static void test_rows(void)
{
    uint32_t *task = tasks + JUZVANEC_TASK_WORDS;
    uint32_t k;

    plan();
    put_vcpu(1, JUZVANEC_CORES - 1u, 1, 9000, 8000);
    ANSWERED(admit_plan());
    put_vcpu(1, JUZVANEC_CORES, 1, 9000, 8000);
    REFUSED(admit_plan(), JUZVANEC_REFUSED_VCPU_ROW, 1);
    plan();
    put_vcpu(1, 3, 1, JUZVANEC_MOST_TIME, JUZVANEC_MOST_TIME);
    put_task(1, 1, JUZVANEC_MOST_TIME, JUZVANEC_MOST_TIME, 0x100);
    task[JUZVANEC_TASK_COSTS] = JUZVANEC_MOST_TIME;
    ANSWERED(admit_plan());
    expect_times(JUZVANEC_MOST_TIME, JUZVANEC_MOST_TIME);
    task[JUZVANEC_TASK_COSTS] = JUZVANEC_MOST_TIME + 1u;
    REFUSED(admit_plan(), JUZVANEC_REFUSED_TASK_ROW, 1);
    put_task(1, 1, JUZVANEC_MOST_TIME + 1u, JUZVANEC_MOST_TIME, 0x100);
    REFUSED(admit_plan(), JUZVANEC_REFUSED_TASK_ROW, 1);
    put_vcpu(1, 3, 1, JUZVANEC_MOST_TIME + 1u, JUZVANEC_MOST_TIME);
    REFUSED(admit_plan(), JUZVANEC_REFUSED_VCPU_ROW, 1);
    plan();
    put_task(0, 1, 20000, 15000, 0x100);
    put_task(1, 0, 7000, 6000, 0x3);
    REFUSED(admit_plan(), JUZVANEC_REFUSED_TASK_ORDER, 1);
    plan();
    put_vcpu(1, 3, 0, 9000, 8000);
    put_task(1, 1, 20000, 15000, 0x2);
    REFUSED(admit_plan(), JUZVANEC_REFUSED_SHARED_COLOUR, 0);
    plan();
    put_vcpu(1, 0, 1, 9000, 8000);
    REFUSED(admit_plan(), JUZVANEC_REFUSED_VCPU_LATE, 1);
    plan();
    put_task(1, 1, 20000, 3599, 0x100);
    REFUSED(admit_plan(), JUZVANEC_REFUSED_TASK_LATE, 1);
    expect_nothing_written();
    /* the cost with k colours is the k-th */
    for (k = 1; k <= 8; k++) {
        plan();
        put_task(0, 0, 7000, 6000, (1u << k) - 1u);
        ANSWERED(admit_plan());
        EXPECT(times[2], 100u * (17u - k));
    }
}

/* The plan of the words above, in structs; its words are the same. */
static void test_structs(void)
{
    struct juzvanec_vcpu vcpu_rows[2];
    struct juzvanec_task task_rows[2];
    uint32_t i;

    vcpu_rows[0].core = 0;
    vcpu_rows[0].domain = 0;
    vcpu_rows[0].period = 10000;
    vcpu_rows[0].budget = 10000;
    vcpu_rows[1].core = 3;
    vcpu_rows[1].domain = 1;
    vcpu_rows[1].period = 9000;
    vcpu_rows[1].budget = 8000;
    task_rows[0].vcpu = 0;
    task_rows[0].period = 7000;
    task_rows[0].deadline = 6000;
    task_rows[0].set = 0x3;
    task_rows[1].vcpu = 1;
    task_rows[1].period = 20000;
    task_rows[1].deadline = 15000;
    task_rows[1].set = 0x100;
    for (i = 0; i < JUZVANEC_MOST_COLOURS; i++)
        task_rows[0].costs[i] = task_rows[1].costs[i] = 100u * (16u - i);
    plan();
    EXPECT(memcmp(juzvanec_vcpus_as_words(vcpu_rows), vcpus, 4u * vcpu_words) != 0, 0);
    EXPECT(memcmp(juzvanec_tasks_as_words(task_rows), tasks, 4u * task_words) != 0, 0);
    ANSWERED(juzvanec_admit_plan(&board, 0, juzvanec_vcpus_as_words(vcpu_rows), vcpu_words,
                                 juzvanec_tasks_as_words(task_rows), task_words, times, times_words, rounds,
                                 rounds_words, &row));
    expect_times(8000, 3600);
}

/* The text of a refusal, and that bytes past it stay. */
static void test_text(void)
{
    static const uint8_t input[1] = {0};
    uint8_t text[JUZVANEC_TEXT_BYTES + 16u];
    size_t i;

    EXPECT(JUZVANEC_TEXT_BYTES, RATTLE_TEXT_BYTES);
    memset(text, 0x77, sizeof text);
    REFUSED(juzvanec_admit(input, sizeof input, text, &first, &second, &row), JUZVANEC_REFUSED_INPUT, 0);
    EXPECT(memcmp(text, "refused 1 0\n", 12) != 0, 0);
    EXPECT(first, 12);
    EXPECT(second, 0);
    for (i = 12; i < sizeof text; i++)
        EXPECT(text[i], 0x77);
}

int main(void)
{
    EXPECT(juzvanec_interface(), JUZVANEC_INTERFACE);
    test_pages();
    test_board();
    test_table();
    test_quotas();
    test_recolour();
    test_take_back();
    test_lengths();
    test_rows();
    test_structs();
    test_text();
    return differences != 0;
}
