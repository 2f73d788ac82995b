/*
 * Takings back that document 02, No. 10, does not give: lists and former sets judged otherwise, and other words
 * written or told. A call is run right first; where it is not refused before 31, what it did is undone, and it is
 * judged and done again.
 */
#include <string.h>

#include "wrong.h"

RIGHT(take_back);

#define TRIPLE JUZVANEC_MOVE_WORDS

int spoils_takings_back(void)
{
    return strncmp(way(), "back-", 5) == 0;
}

static int is_own(uint32_t domain, uint16_t word)
{
    uint32_t first = JUZVANEC_PAGE_WORD(domain, 0);

    return word >= first && word <= first + JUZVANEC_LAST_PAGE;
}

/* Whether a frame of the last triple is there a second time. */
static int is_twice(const uint16_t *moves, size_t last)
{
    uint16_t old = moves[last + 1], new = moves[last + 2];
    size_t place;

    if (wrong("back-twice-in-triple"))
        return old == new;
    for (place = 0; place < last; place += TRIPLE) {
        uint16_t old_before = moves[place + 1], new_before = moves[place + 2];

        if (old == old_before && !wrong("back-twice-new"))
            return 1;
        if (new == new_before && !wrong("back-twice-old"))
            return 1;
        if ((old == new_before || new == old_before) && !wrong("back-twice-new") && !wrong("back-twice-old"))
            return 1;
    }
    return old == new;
}

/* Whether the last triple stands where a recolouring would not have written it. */
static int is_misplaced(const uint16_t *moves, size_t last)
{
    const uint16_t *before = moves + last - TRIPLE;

    if (last == 0)
        return 0;
    return before[0] > moves[last] || (before[0] == moves[last] && before[1] > moves[last + 1]);
}

static int is_list(const struct juzvanec_board *board, const uint16_t *table, uint32_t domain, uint32_t set,
                   const uint16_t *moves, size_t move_words)
{
    uint32_t last_page = JUZVANEC_LAST_PAGE + (wrong("back-page-more") ? 1 : 0);
    uint32_t former = wrong("back-present-set") ? board->active[domain] : set;
    size_t place;

    if (move_words % TRIPLE)
        return 0;
    for (place = 0; place < move_words; place += TRIPLE) {
        uint32_t page = moves[place], old = moves[place + 1], new = moves[place + 2];

        if (page > last_page || old >= board->frames || new >= board->frames)
            return 0;
        if (table[new] != JUZVANEC_PAGE_WORD(domain, page))
            return 0;
        if (table[old] != JUZVANEC_FREE && !wrong("back-old-word"))
            return 0;
        if (!(former >> old % board->colours & 1) || is_twice(moves, place))
            return 0;
        if (wrong("back-page-order") && is_misplaced(moves, place))
            return 0;
    }
    return 1;
}

/* Whether a frame of the domain lies outside the set. */
static int strays(const struct juzvanec_board *board, const uint16_t *table, uint32_t domain, uint32_t set)
{
    uint32_t frame;

    for (frame = 0; frame < board->frames; frame++)
        if (is_own(domain, table[frame]) && !(set >> frame % board->colours & 1))
            return 1;
    return 0;
}

static uint32_t held(const struct juzvanec_board *board, const uint16_t *table, uint32_t domain)
{
    uint32_t frame, sum = 0;

    for (frame = 0; frame < board->frames; frame++)
        sum += (uint32_t)is_own(domain, table[frame]);
    return sum;
}

/* The number of the refusal; the frames are moved back in a table of its own. */
static uint32_t judged(const struct juzvanec_board *board, const uint16_t *table, uint16_t *after, uint32_t domain,
                       uint32_t set, const uint16_t *moves, size_t move_words)
{
    size_t place;

    memcpy(after, table, board->frames * sizeof *table);
    if (wrong("back-quota") && held(board, table, domain) > board->quotas[domain])
        return JUZVANEC_REFUSED_AT_QUOTA;
    if (!is_list(board, table, domain, set, moves, move_words))
        return JUZVANEC_REFUSED_TRIPLES;
    for (place = 0; place < move_words; place += TRIPLE) {
        after[moves[place + 2]] = JUZVANEC_FREE;
        after[moves[place + 1]] = table[moves[place + 2]];
    }
    if (strays(board, wrong("back-outside-before") ? table : after, domain, set))
        return JUZVANEC_REFUSED_LEFT_OUTSIDE;
    return JUZVANEC_ANSWERED;
}

uint32_t back_take_back(struct juzvanec_board *board, uint16_t *table, size_t table_words, uint32_t domain,
                        uint32_t set, const uint16_t *moves, size_t move_words, uint32_t *count, uint32_t *row)
{
    static uint16_t before[JUZVANEC_MOST_FRAMES], after[JUZVANEC_MOST_FRAMES];
    struct juzvanec_board given = *board;
    size_t words = table_words < JUZVANEC_MOST_FRAMES ? table_words : JUZVANEC_MOST_FRAMES;
    uint32_t number;
    int left;

    memcpy(before, table, words * sizeof *table);
    number = right_take_back(board, table, table_words, domain, set, moves, move_words, count, row);
    if (number == JUZVANEC_REFUSED_SET && wrong("back-list-first") &&
        !is_list(board, table, domain, set, moves, move_words))
        return JUZVANEC_REFUSED_TRIPLES;
    if (number && number != JUZVANEC_REFUSED_TRIPLES && number != JUZVANEC_REFUSED_LEFT_OUTSIDE)
        return number;
    *board = given;
    memcpy(table, before, words * sizeof *table);
    *count = *row = 0;
    number = judged(board, before, after, domain, set, moves, move_words);
    left = number == JUZVANEC_REFUSED_LEFT_OUTSIDE;
    if (!number || (left && wrong("back-refused-table")))
        memcpy(table, after, words * sizeof *table);
    if ((!number && !wrong("back-set-kept")) || (left && wrong("back-refused-board")))
        board->active[domain] = set;
    if (number == JUZVANEC_REFUSED_TRIPLES && wrong("back-row"))
        *row = domain;
    if (number)
        return number;
    *count = (uint32_t)(move_words / (wrong("back-words-counted") ? 1 : TRIPLE));
    if (move_words > 0 && wrong("back-list-written"))
        ((uint16_t *)moves)[0] ^= 1;
    return number;
}
