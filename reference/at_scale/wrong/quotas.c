/*
 * Quotas that document 02, No. 6, does not give: counted, compared, tested, told or set otherwise. A call is run
 * right first, and what it did is undone where it is to be answered otherwise.
 */
#include <string.h>

#include "wrong.h"

RIGHT(fault);
RIGHT(colours);
RIGHT(set_quota);
RIGHT(recolour);

int is_quota(uint32_t quota)
{
    return quota >= 1 && quota <= JUZVANEC_MOST_QUOTA;
}

static int is_own(uint32_t domain, uint16_t word)
{
    uint32_t first = JUZVANEC_PAGE_WORD(domain, 0);

    return word >= first && word <= first + JUZVANEC_LAST_PAGE;
}

/* The frames that the domain holds, as the library counts them. */
static uint32_t held(const struct juzvanec_board *board, const uint16_t *table, size_t table_words, uint32_t domain)
{
    uint32_t next = 1u + JUZVANEC_PAGE_WORD(domain, JUZVANEC_LAST_PAGE);
    uint32_t frame, sum = 0;

    for (frame = 0; frame < table_words; frame++) {
        int active = board->active[domain] >> frame % board->colours & 1;

        sum += is_own(domain, table[frame]) && (active || !wrong("quota-active-colours"));
        sum += table[frame] == next && wrong("quota-next-domain");
    }
    return wrong("quota-byte") ? sum % 256u : sum;
}

int spoils_quotas(void)
{
    return strncmp(way(), "quota-", 6) == 0;
}

/* Whether a quota of a domain at or beyond the count is none. */
static int bad_beyond(const struct juzvanec_board *board)
{
    uint32_t domain;

    for (domain = board->domains; domain < JUZVANEC_MOST_DOMAINS; domain++)
        if (!is_quota(board->quotas[domain]))
            return 1;
    return 0;
}

/* The number of a reply, or another where the test of the board's quotas has another place or reads more. */
static uint32_t tested(const struct juzvanec_board *board, uint32_t domain, uint32_t number)
{
    if (number == JUZVANEC_REFUSED_QUOTA && domain >= board->domains && wrong("quota-caller-first"))
        return JUZVANEC_REFUSED_CALLER;
    if (number == JUZVANEC_REFUSED_CALLER && wrong("quota-beyond-count") && bad_beyond(board))
        return JUZVANEC_REFUSED_QUOTA;
    return number;
}

/* A fault without a quota. The most of all holds a domain back just where no frame is left. */
static uint32_t fault_without(const struct juzvanec_board *board, uint16_t *table, size_t table_words, uint32_t domain,
                              uint32_t page, uint32_t *is_new, uint32_t *frame, uint32_t *row)
{
    struct juzvanec_board other = *board;
    uint32_t number;

    other.quotas[domain] = JUZVANEC_MOST_QUOTA;
    number = right_fault(&other, table, table_words, domain, page, is_new, frame, row);
    return number == JUZVANEC_REFUSED_AT_QUOTA ? JUZVANEC_REFUSED_NO_FRAME : number;
}

uint32_t quota_fault(const struct juzvanec_board *board, uint16_t *table, size_t table_words, uint32_t domain,
                     uint32_t page, uint32_t *is_new, uint32_t *frame, uint32_t *row)
{
    uint32_t number = right_fault(board, table, table_words, domain, page, is_new, frame, row);
    int refused = number && number != JUZVANEC_REFUSED_AT_QUOTA && number != JUZVANEC_REFUSED_NO_FRAME;
    int mapped = !number && !*is_new, behind = wrong("quota-behind-frames");
    uint32_t frames;

    if (refused || (mapped && !wrong("quota-mapped")))
        return tested(board, domain, number);
    if (*is_new)
        table[*frame] = JUZVANEC_FREE;
    frames = held(board, table, table_words, domain) + (wrong("quota-only-above") ? 0 : 1);
    if (frames <= board->quotas[domain])
        return fault_without(board, table, table_words, domain, page, is_new, frame, row);
    if (behind && number != JUZVANEC_REFUSED_NO_FRAME) {
        number = fault_without(board, table, table_words, domain, page, is_new, frame, row);
        if (number)
            return number;
        table[*frame] = JUZVANEC_FREE;
    }
    *is_new = *frame = *row = 0;
    return JUZVANEC_REFUSED_AT_QUOTA;
}

uint32_t quota_colours(const struct juzvanec_board *board, const uint16_t *table, size_t table_words, uint32_t domain,
                       uint32_t *set, uint32_t *quota, uint32_t *row)
{
    uint32_t number = right_colours(board, table, table_words, domain, set, quota, row);

    if (!number && wrong("quota-domain-zero"))
        *quota = board->quotas[0];
    if (!number && wrong("quota-beyond-count") && bad_beyond(board)) {
        *set = *quota = 0;
        return JUZVANEC_REFUSED_QUOTA;
    }
    return tested(board, domain, number);
}

uint32_t quota_set_quota(struct juzvanec_board *board, const uint16_t *table, size_t table_words, uint32_t domain,
                         uint32_t quota, uint32_t *answer, uint32_t *row)
{
    struct juzvanec_board before = *board;
    uint32_t number = right_set_quota(board, table, table_words, domain, quota, answer, row);
    int taken;

    if (number && number != JUZVANEC_REFUSED_NEW_QUOTA)
        return tested(board, domain, number);
    taken = is_quota(quota) && (wrong("quota-below-held") || quota >= held(board, table, table_words, domain));
    if (quota > board->frames && wrong("quota-above-frames"))
        taken = 0;
    *board = before;
    *answer = *row = 0;
    if (!taken) {
        if (wrong("quota-row"))
            *row = domain;
        if (wrong("quota-refused"))
            board->quotas[domain] = quota;
        return JUZVANEC_REFUSED_NEW_QUOTA;
    }
    board->quotas[domain] = quota;
    *answer = wrong("quota-old-told") ? before.quotas[domain] : quota;
    if (wrong("quota-other-domain"))
        board->quotas[(domain + 1) % JUZVANEC_MOST_DOMAINS] = quota;
    return JUZVANEC_ANSWERED;
}

uint32_t quota_recolour(struct juzvanec_board *board, uint16_t *table, size_t table_words, uint32_t domain,
                        uint32_t set, uint16_t *moves, size_t move_words, uint32_t *count, uint32_t *row)
{
    uint32_t number = right_colours(board, table, table_words, domain, count, count, row);

    if (!number && wrong("quota-recolouring") && held(board, table, table_words, domain) > board->quotas[domain]) {
        *count = 0;
        return JUZVANEC_REFUSED_AT_QUOTA;
    }
    number = right_recolour(board, table, table_words, domain, set, moves, move_words, count, row);
    return tested(board, domain, number);
}
