/*
 * Measures how much stack each function takes, with what it calls, from the first argument or return
 * address that the caller stores: the calls run on a stack of their own that was painted before, on plans
 * and boards of every size and on such as are refused. Prints the bytes for each function.
 *
 * A constant JUZVANEC_STACK_* of the header is right where it is the most that was seen of its functions, rounded
 * up to the next multiple of STEP. The exit status is 1 where one is another number, too small or too large.
 */
#define _XOPEN_SOURCE 700
#include <stdio.h>
#include <string.h>
#include <ucontext.h>

#include "juzvanec.h"

static uint8_t stack[65536];
static void (*call)(void);

/* What is lent, and what comes back. */
static struct juzvanec_board board, as_booted;
static uint16_t table[JUZVANEC_MOST_FRAMES], moves[JUZVANEC_MOVE_WORDS * JUZVANEC_MOST_FRAMES];
static uint16_t triples[JUZVANEC_MOVE_WORDS * JUZVANEC_MOST_FRAMES / 16];
static size_t triple_words;
static struct juzvanec_vcpu vcpus[JUZVANEC_MOST_VCPUS];
static struct juzvanec_task tasks[JUZVANEC_MOST_TASKS];
static uint32_t times[JUZVANEC_MOST_VCPUS + JUZVANEC_MOST_TASKS];
static uint32_t rounds[JUZVANEC_MOST_VCPUS + JUZVANEC_MOST_TASKS];
static uint32_t first, second, row;
static uint8_t input[4096], text[JUZVANEC_TEXT_BYTES];
static size_t input_bytes, start, length;

static void nothing(void)
{
}

static void call_interface(void)
{
    first = juzvanec_interface();
}

static void call_cache_colours(void)
{
    juzvanec_cache_colours(1048576, 16, &first, &row);
}

static void call_layout(void)
{
    juzvanec_layout(board.colours, 0xA5A5, 123456, &first, &row);
}

static void call_bleach(void)
{
    juzvanec_bleach(board.colours, 0xFFFF, 123456, &first, &row);
}

static void call_look(void)
{
    juzvanec_look(&board, table, board.frames, 1, 5, &first, &second, &row);
}

static void call_fault(void)
{
    juzvanec_fault(&board, table, board.frames, 1, 4000, &first, &second, &row);
}

static void call_release(void)
{
    juzvanec_release(&board, table, board.frames, 1, 5, &first, &row);
}

static void call_colours(void)
{
    juzvanec_colours(&board, table, board.frames, 1, &first, &second, &row);
}

static void call_set_quota(void)
{
    juzvanec_set_quota(&board, table, board.frames, 1, 300, &first, &row);
}

static void call_recolour(void)
{
    juzvanec_recolour(&board, table, board.frames, 1, 0x8, moves, sizeof moves / sizeof *moves, &first, &row);
}

static void call_take_back(void)
{
    juzvanec_take_back(&board, table, board.frames, 1, 0x8, triples, triple_words, &first, &row);
}

static void call_part(void)
{
    juzvanec_part(juzvanec_tasks_as_words(tasks), sizeof tasks / 4, 15, &start, &length);
}

static void call_admit_plan(void)
{
    juzvanec_admit_plan(&board, 100, juzvanec_vcpus_as_words(vcpus), sizeof vcpus / 4,
                        juzvanec_tasks_as_words(tasks), sizeof tasks / 4, times, sizeof times / 4, rounds,
                        sizeof rounds / 4, &row);
}

static void call_admit(void)
{
    juzvanec_admit(input, input_bytes, text, &first, &second, &row);
}

static void enter(void)
{
    call();
}

/* The bytes of the painted stack that a call changes. */
static size_t changed(void (*called)(void), uint8_t paint)
{
    static ucontext_t outside, inside;
    size_t untouched = 0;

    memset(stack, paint, sizeof stack);
    call = called;
    getcontext(&inside);
    inside.uc_stack.ss_sp = stack;
    inside.uc_stack.ss_size = sizeof stack;
    inside.uc_link = &outside;
    makecontext(&inside, enter, 0);
    swapcontext(&outside, &inside);
    while (untouched < sizeof stack && stack[untouched] == paint)
        untouched++;
    return sizeof stack - untouched;
}

static void put(const void *words, size_t bytes)
{
    memcpy(input + input_bytes, words, bytes);
    input_bytes += bytes;
}

/*
 * Every domain, VCPU, task and frame that there may be. Domain 1 holds half of its frames, those of its lower colour,
 * and has triples by which all go to the upper one.
 */
static void boot(void)
{
    uint32_t i, k;
    uint16_t *triple = triples;

    as_booted.colours = JUZVANEC_MOST_COLOURS;
    as_booted.frames = JUZVANEC_MOST_FRAMES;
    as_booted.domains = JUZVANEC_MOST_DOMAINS;
    for (i = 0; i < JUZVANEC_MOST_DOMAINS; i++) {
        as_booted.grants[i] = as_booted.active[i] = 3u << 2 * i;
        as_booted.quotas[i] = JUZVANEC_FIRST_QUOTA;
    }
    for (i = 0; i < JUZVANEC_MOST_FRAMES; i++)
        table[i] = i % 16 == 2 ? JUZVANEC_PAGE_WORD(1, i / 16) : JUZVANEC_FREE;
    for (i = 2; i < JUZVANEC_MOST_FRAMES; i += 16) {
        *triple++ = (uint16_t)(i / 16);
        *triple++ = (uint16_t)(i + 1u);
        *triple++ = (uint16_t)i;
    }
    triple_words = sizeof triples / sizeof *triples;
    for (i = 0; i < JUZVANEC_MOST_VCPUS; i++) {
        vcpus[i].core = i % JUZVANEC_CORES;
        vcpus[i].domain = i / 2;
        vcpus[i].period = 1000;
        vcpus[i].budget = 250;
    }
    for (i = 0; i < JUZVANEC_MOST_TASKS; i++) {
        tasks[i].vcpu = i / 2;
        tasks[i].period = tasks[i].deadline = JUZVANEC_MOST_TIME;
        tasks[i].set = 1u << i / 2;
        for (k = 0; k < JUZVANEC_MOST_COLOURS; k++)
            tasks[i].costs[k] = 120000;
    }
}

/* The way in which the board, the plan or the triples are at fault; the input of `admit` is made of the plan. */
static void spoil(unsigned fault)
{
    uint32_t counts[2] = {100, JUZVANEC_MOST_VCPUS}, rows = JUZVANEC_MOST_TASKS;

    boot();
    if (fault == 1)
        as_booted.grants[7] = as_booted.active[7] = 0;
    if (fault == 2)
        as_booted.grants[7] = as_booted.active[7] = 0x1;
    if (fault == 3)
        as_booted.active[7] = 0x1;
    if (fault == 4)
        as_booted.frames = 0;
    if (fault == 5)
        vcpus[15].budget = 0;
    if (fault == 6)
        tasks[31].costs[15] = 0;
    if (fault == 7)
        tasks[31].set = 0xC000;
    if (fault == 8)
        vcpus[15].budget = 251;
    if (fault == 9)
        tasks[31].costs[0] = 200000;
    if (fault == 11)
        as_booted.quotas[7] = 0;
    if (fault == 12)
        as_booted.quotas[1] = 1;
    if (fault == 13)
        triples[triple_words - 2u] = triples[1];
    if (fault == 14)
        triple_words -= JUZVANEC_MOVE_WORDS;
    if (fault == 15)
        triple_words--;
    input_bytes = 0;
    put(&as_booted, 12);
    put(as_booted.grants, sizeof as_booted.grants);
    put(counts, sizeof counts);
    put(vcpus, sizeof vcpus);
    put(&rows, sizeof rows);
    put(tasks, fault == 10 ? 1 : sizeof tasks);
}

/* The most that the function takes beyond a call of nothing, over all inputs. */
static size_t most(void (*called)(void))
{
    size_t deepest = 0, base, bytes;
    unsigned fault, paint;

    for (fault = 0; fault <= 15; fault++)
        for (paint = 0x5A; paint <= 0xA5; paint += 0xA5 - 0x5A) {
            spoil(fault);
            board = as_booted;
            base = changed(nothing, (uint8_t)paint);
            bytes = changed(called, (uint8_t)paint);
            if (bytes > base && bytes - base > deepest)
                deepest = bytes - base;
        }
    return deepest;
}

/* What is seen is rounded up, so that a constant need not change with every few bytes. */
#define STEP 256u

/* The constants of the header, and the most that was seen of the functions that each is for. */
static struct {
    const char *name;
    size_t bytes, seen;
} constants[] = {
    {"JUZVANEC_STACK_RECOLOUR", JUZVANEC_STACK_RECOLOUR, 0},
    {"JUZVANEC_STACK_TAKE_BACK", JUZVANEC_STACK_TAKE_BACK, 0},
    {"JUZVANEC_STACK_ADMIT", JUZVANEC_STACK_ADMIT, 0},
    {"JUZVANEC_STACK_OTHERS", JUZVANEC_STACK_OTHERS, 0},
};
enum { RECOLOUR, TAKE_BACK, ADMIT, OTHERS }; /* their places there */

#define FUNCTION(name, constant) {"juzvanec_" #name, call_##name, constant}

static const struct {
    const char *name;
    void (*called)(void);
    unsigned constant;
} functions[] = {
    FUNCTION(interface, OTHERS), FUNCTION(cache_colours, OTHERS), FUNCTION(layout, OTHERS),
    FUNCTION(bleach, OTHERS),    FUNCTION(look, OTHERS),          FUNCTION(fault, OTHERS),
    FUNCTION(release, OTHERS),   FUNCTION(colours, OTHERS),       FUNCTION(set_quota, OTHERS),
    FUNCTION(part, OTHERS),      FUNCTION(admit_plan, OTHERS),    FUNCTION(recolour, RECOLOUR),
    FUNCTION(admit, ADMIT),      FUNCTION(take_back, TAKE_BACK),
};

int main(void)
{
    size_t bytes, right;
    unsigned i;
    int wrong = 0;

    for (i = 0; i < sizeof functions / sizeof *functions; i++) {
        bytes = most(functions[i].called);
        printf("%s: %lu bytes of stack\n", functions[i].name, (unsigned long)bytes);
        if (bytes > constants[functions[i].constant].seen)
            constants[functions[i].constant].seen = bytes;
    }
    for (i = 0; i < sizeof constants / sizeof *constants; i++) {
        right = (constants[i].seen + STEP - 1u) / STEP * STEP;
        if (constants[i].bytes != right) {
            printf("%s is %lu, and %lu bytes of stack were seen: set it to %lu in include/juzvanec.h, "
                   "and run .ci/figures --write\n",
                   constants[i].name, (unsigned long)constants[i].bytes, (unsigned long)constants[i].seen,
                   (unsigned long)right);
            wrong = 1;
        }
    }
    return wrong;
}
