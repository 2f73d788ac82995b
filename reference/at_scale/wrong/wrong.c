/*
 * A library that is wrong in one way, named by the environment variable JUZVANEC_WRONG, so that the
 * comparison at scale can be seen to fail. `check` renames the functions of the right library to right_*
 * and links this in front of them.
 */
#include <stdlib.h>
#include <string.h>

#include "wrong.h"

RIGHT(interface);
RIGHT(cache_colours);
RIGHT(layout);
RIGHT(bleach);
RIGHT(look);
RIGHT(fault);
RIGHT(release);
RIGHT(colours);
RIGHT(set_quota);
RIGHT(recolour);
RIGHT(take_back);
RIGHT(part);
RIGHT(admit_plan);
RIGHT(admit);

const char *way(void)
{
    static const char *chosen;

    if (!chosen)
        chosen = getenv("JUZVANEC_WRONG");
    return chosen ? chosen : "";
}

int wrong(const char *this_way)
{
    return strcmp(way(), this_way) == 0;
}

uint32_t juzvanec_interface(void)
{
    return right_interface() + (wrong("interface-number") ? 1 : 0);
}

uint32_t juzvanec_cache_colours(uint64_t bytes, uint64_t ways, uint32_t *colours, uint32_t *row)
{
    uint32_t number = right_cache_colours(bytes, ways, colours, row);

    if (number && wrong("cache-row"))
        *row = 1;
    return number;
}

uint32_t juzvanec_layout(uint32_t colours, uint32_t set, uint32_t index, uint32_t *page, uint32_t *row)
{
    uint32_t number = right_layout(colours, set, index, page, row);

    if (!number && index == JUZVANEC_LAST_INDEX && wrong("layout-last"))
        ++*page;
    return number;
}

uint32_t juzvanec_bleach(uint32_t colours, uint32_t set, uint32_t page, uint32_t *index, uint32_t *row)
{
    uint32_t number = right_bleach(colours, set, page, index, row);

    if (number == JUZVANEC_REFUSED_OUTSIDE_SET && wrong("bleach-index-kept"))
        *index = page;
    return number;
}

uint32_t juzvanec_look(const struct juzvanec_board *board, const uint16_t *table, size_t table_words,
                       uint32_t domain, uint32_t page, uint32_t *mapped, uint32_t *frame, uint32_t *row)
{
    uint32_t number = right_look(board, table, table_words, domain, page, mapped, frame, row);
    uint32_t above;

    if (!number && *mapped && wrong("look-highest"))
        for (above = *frame; above < table_words; above++)
            if (table[above] == JUZVANEC_PAGE_WORD(domain, page))
                *frame = above;
    return number;
}

/* A fault that does not see the words from one on. */
static uint32_t fault_up_to(const struct juzvanec_board *board, uint16_t *table, size_t words, uint32_t domain,
                            uint32_t page, uint32_t *is_new, uint32_t *frame, uint32_t *row)
{
    struct juzvanec_board shorter = *board;

    shorter.frames = (uint32_t)words;
    return right_fault(&shorter, table, words, domain, page, is_new, frame, row);
}

/* A fault that does not see one word. */
static uint32_t fault_without(const struct juzvanec_board *board, uint16_t *table, size_t table_words, uint32_t unseen,
                              uint32_t domain, uint32_t page, uint32_t *is_new, uint32_t *frame, uint32_t *row)
{
    uint16_t word = table[unseen];
    uint32_t number;

    table[unseen] = JUZVANEC_RESERVED;
    number = right_fault(board, table, table_words, domain, page, is_new, frame, row);
    table[unseen] = word;
    return number;
}

uint32_t juzvanec_fault(const struct juzvanec_board *board, uint16_t *table, size_t table_words,
                        uint32_t domain, uint32_t page, uint32_t *is_new, uint32_t *frame, uint32_t *row)
{
    size_t whole = table_words - table_words % 16;
    uint32_t number, above;

    if (chooses())
        return choosing_fault(board, table, table_words, domain, page, is_new, frame, row);
    if (spoils_quotas())
        return quota_fault(board, table, table_words, domain, page, is_new, frame, row);
    if (board->frames == table_words && whole > 0 && wrong("fault-rest"))
        return fault_up_to(board, table, whole, domain, page, is_new, frame, row);
    number = right_fault(board, table, table_words, domain, page, is_new, frame, row);
    if (!number && !*is_new && *frame % 16 == 15 && wrong("fault-block-end"))
        return fault_without(board, table, table_words, *frame, domain, page, is_new, frame, row);
    if (!number && !*is_new && *frame > 0 && table[0] == JUZVANEC_FREE && wrong("fault-forgets"))
        return fault_without(board, table, table_words, *frame, domain, page, is_new, frame, row);
    if (*is_new && wrong("fault-last")) {
        for (above = *frame; above < table_words; above += board->colours)
            if (table[above] == JUZVANEC_FREE) {
                table[above] = table[*frame];
                table[*frame] = JUZVANEC_FREE;
                *frame = above;
            }
        return number;
    }

    if (*is_new && wrong("fault-table"))
        table[*frame] = JUZVANEC_FREE;
    if (*is_new && wrong("fault-old"))
        *is_new = 0;
    if (number == JUZVANEC_REFUSED_NO_FRAME && wrong("fault-number"))
        return JUZVANEC_REFUSED_MOVE_LIST;
    return number;
}

uint32_t juzvanec_release(const struct juzvanec_board *board, uint16_t *table, size_t table_words,
                          uint32_t domain, uint32_t page, uint32_t *frame, uint32_t *row)
{
    uint32_t number = right_release(board, table, table_words, domain, page, frame, row);

    if (!number && wrong("release-reserves"))
        table[*frame] = JUZVANEC_RESERVED;
    return number;
}

uint32_t juzvanec_colours(const struct juzvanec_board *board, const uint16_t *table, size_t table_words,
                          uint32_t domain, uint32_t *set, uint32_t *quota, uint32_t *row)
{
    uint32_t number;

    if (spoils_quotas())
        return quota_colours(board, table, table_words, domain, set, quota, row);
    number = right_colours(board, table, table_words, domain, set, quota, row);
    if (!number && wrong("colours-grant"))
        *set = board->grants[domain];
    return number;
}

uint32_t juzvanec_set_quota(struct juzvanec_board *board, const uint16_t *table, size_t table_words,
                            uint32_t domain, uint32_t quota, uint32_t *answer, uint32_t *row)
{
    if (spoils_quotas())
        return quota_set_quota(board, table, table_words, domain, quota, answer, row);
    return right_set_quota(board, table, table_words, domain, quota, answer, row);
}

uint32_t juzvanec_recolour(struct juzvanec_board *board, uint16_t *table, size_t table_words,
                           uint32_t domain, uint32_t set, uint16_t *moves, size_t move_words,
                           uint32_t *count, uint32_t *row)
{
    uint32_t number;

    if (chooses())
        return choosing_recolour(board, table, table_words, domain, set, moves, move_words, count, row);
    if (orders())
        return ordering_recolour(board, table, table_words, domain, set, moves, move_words, count, row);
    if (spoils_quotas())
        return quota_recolour(board, table, table_words, domain, set, moves, move_words, count, row);
    number = right_recolour(board, table, table_words, domain, set, moves, move_words, count, row);
    if (number)
        return number;
    if (wrong("recolour-board"))
        board->active[domain] = board->grants[domain];
    if (wrong("recolour-count"))
        ++*count;
    if (3 * *count < move_words && wrong("recolour-rest"))
        moves[3 * *count] = 0;
    if (*count > 1 && wrong("recolour-targets")) {
        uint16_t target = moves[2];

        moves[2] = moves[5];
        moves[5] = target;
    }
    if (wrong("recolour-beyond"))
        moves[move_words] = 0;
    return number;
}

uint32_t juzvanec_take_back(struct juzvanec_board *board, uint16_t *table, size_t table_words,
                            uint32_t domain, uint32_t set, const uint16_t *moves, size_t move_words,
                            uint32_t *count, uint32_t *row)
{
    if (spoils_takings_back())
        return back_take_back(board, table, table_words, domain, set, moves, move_words, count, row);
    return right_take_back(board, table, table_words, domain, set, moves, move_words, count, row);
}

void juzvanec_part(const uint32_t *tasks, size_t task_words, uint32_t vcpu, size_t *start, size_t *length)
{
    right_part(tasks, task_words, vcpu, start, length);
    if (*length == 0 && wrong("part-start"))
        *start = task_words;
}

static uint32_t ones(uint32_t set)
{
    uint32_t count = 0;

    for (; set; set &= set - 1)
        count++;
    return count;
}

static uint64_t least_supply(const uint32_t *vcpu, uint64_t t)
{
    uint64_t period = vcpu[JUZVANEC_VCPU_PERIOD];
    uint64_t budget = vcpu[JUZVANEC_VCPU_BUDGET];
    uint64_t gap = period - budget;
    uint64_t rest;

    if (t < gap)
        return 0;
    rest = (t - gap) % period;
    return (t - gap) / period * budget + (rest > gap ? rest - gap : 0);
}

static uint64_t cost(const uint32_t *task)
{
    return task[JUZVANEC_TASK_COSTS + ones(task[JUZVANEC_TASK_SET]) - 1];
}

/* The need of a task row in t, with only the colours reloaded that the two rows of a pair both hold. */
static uint64_t pairwise_need(uint32_t reload, const uint32_t *tasks, const uint32_t *own, uint64_t t)
{
    uint64_t need = cost(own);
    const uint32_t *row;

    for (row = tasks; row != own; row += JUZVANEC_TASK_WORDS) {
        uint64_t period = row[JUZVANEC_TASK_PERIOD];
        uint64_t both = ones(row[JUZVANEC_TASK_SET] & own[JUZVANEC_TASK_SET]);

        if (row[JUZVANEC_TASK_VCPU] == own[JUZVANEC_TASK_VCPU])
            need += (t + period - 1) / period * (cost(row) + reload * both);
    }
    return need;
}

/* The last task's time by that need. It has one, since it has one by the need of an admitted plan. */
static uint32_t pairwise_time(uint32_t reload, const uint32_t *vcpus, const uint32_t *tasks,
                              size_t task_words)
{
    const uint32_t *own = tasks + task_words - JUZVANEC_TASK_WORDS;
    const uint32_t *vcpu = vcpus + JUZVANEC_VCPU_WORDS * own[JUZVANEC_TASK_VCPU];
    uint64_t t;

    for (t = 1; t < own[JUZVANEC_TASK_DEADLINE]; t++)
        if (least_supply(vcpu, t) >= pairwise_need(reload, tasks, own, t))
            break;
    return (uint32_t)t;
}

/* All rows of the largest plan. */
#define MOST_ROWS (JUZVANEC_MOST_VCPUS + JUZVANEC_MOST_TASKS)

/* The first words of a list go behind those of the rest. */
static void swap_parts(uint32_t *list, size_t first, size_t rows)
{
    uint32_t kept[MOST_ROWS];

    memcpy(kept, list, first * sizeof *list);
    memmove(list, list + first, (rows - first) * sizeof *list);
    memcpy(list + rows - first, kept, first * sizeof *list);
}

static void spoil_rounds(uint32_t number, size_t vcpus, size_t rows, uint32_t *rounds, size_t rounds_words)
{
    size_t row;

    if (number) {
        if (rounds_words > 0 && wrong("rounds-refused"))
            rounds[0] = 0;
        return;
    }
    if (wrong("rounds-last"))
        for (row = 0; row < rows; row++)
            rounds[row]--;
    if (wrong("rounds-shifted"))
        memmove(rounds + 1, rounds, (rows - 1) * sizeof *rounds);
    if (wrong("rounds-tasks-first"))
        swap_parts(rounds, vcpus, rows);
    if (rows < rounds_words && wrong("rounds-rest"))
        rounds[rows] = 0;
    if (wrong("rounds-beyond"))
        rounds[rounds_words] = 0;
}

uint32_t juzvanec_admit_plan(const struct juzvanec_board *board, uint32_t reload, const uint32_t *vcpus,
                             size_t vcpu_words, const uint32_t *tasks, size_t task_words,
                             uint32_t *times, size_t times_words, uint32_t *rounds, size_t rounds_words,
                             uint32_t *row)
{
    size_t vcpu_rows = vcpu_words / JUZVANEC_VCPU_WORDS;
    size_t rows = vcpu_rows + task_words / JUZVANEC_TASK_WORDS;
    uint32_t kept[MOST_ROWS];
    /* 16 by the list of times alone: one of rounds that is too short gets as many as it holds */
    int no_test = rounds_words < rows && rows <= MOST_ROWS && wrong("rounds-room");
    uint32_t number, domain;

    if (wrong("plan-quota") && board->domains <= JUZVANEC_MOST_DOMAINS)
        for (domain = 0; domain < board->domains; domain++)
            if (!is_quota(board->quotas[domain])) {
                *row = 0;
                return JUZVANEC_REFUSED_QUOTA;
            }
    number = right_admit_plan(board, reload, vcpus, vcpu_words, tasks, task_words, times, times_words,
                              no_test ? kept : rounds, no_test ? rows : rounds_words, row);
    if (!number && no_test)
        memcpy(rounds, kept, rounds_words * sizeof *rounds);
    else
        spoil_rounds(number, vcpu_rows, rows, rounds, rounds_words);
    if (!number && wrong("plan-time"))
        times[rows - 1]++;
    if (!number && wrong("plan-pairwise"))
        times[rows - 1] = pairwise_time(reload, vcpus, tasks, task_words);
    if (!number && rows < times_words && wrong("plan-rest"))
        times[rows] = 0;
    if (number && times_words > 0 && wrong("plan-refused"))
        times[0] = 0;
    if (number == JUZVANEC_REFUSED_TASK_LATE && wrong("plan-row"))
        *row = 0;
    return number;
}

uint32_t juzvanec_admit(const uint8_t *input, size_t input_bytes, uint8_t text[JUZVANEC_TEXT_BYTES],
                        uint32_t *length, uint32_t *words, uint32_t *row)
{
    uint32_t number = right_admit(input, input_bytes, text, length, words, row);

    if (!number && wrong("admit-text"))
        text[*length - 1] = ' ';
    if (number > JUZVANEC_REFUSED_INPUT && wrong("admit-words"))
        *words = 0;
    if (wrong("admit-rest"))
        text[*length] = 0;
    return number;
}
