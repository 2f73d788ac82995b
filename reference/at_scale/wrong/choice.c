/*
 * Choices of a free frame that document 02, No. 7, does not make. A call is run right first, and what it gave
 * out is then given out again by the choice, or refused with 12 where the choice has none.
 */
#include <string.h>

#include "wrong.h"

RIGHT(fault);
RIGHT(recolour);

/* No frame. */
#define NONE JUZVANEC_MOST_FRAMES
#define LANES 16u

/* What a choice goes by. */
struct sight {
    const struct juzvanec_board *board;
    uint32_t domain;
    uint32_t set, former; /* the active set, in a recolouring the new one, and the one before the call */
    uint32_t words;
    uint32_t lowest;              /* the lowest free frame of the set */
    const uint16_t *before, *now; /* the table before the call, and with the moves so far */
};

/* By word, the number of the last count in which it was seen. */
static uint32_t seen[65536], counts;

static int is_own(const struct sight *sight, uint16_t word)
{
    uint32_t first = JUZVANEC_PAGE_WORD(sight->domain, 0);

    return word >= first && word <= first + JUZVANEC_LAST_PAGE;
}

static uint32_t colour_of(const struct sight *sight, uint32_t frame)
{
    return frame % sight->board->colours;
}

static int in_set(const struct sight *sight, uint32_t frame)
{
    return sight->set >> colour_of(sight, frame) & 1;
}

/* Free now, and before any move. */
static int is_free(const struct sight *sight, uint32_t frame)
{
    return sight->now[frame] == JUZVANEC_FREE && sight->before[frame] == JUZVANEC_FREE;
}

static uint32_t lowest_free(const struct sight *sight, uint32_t colour)
{
    uint32_t frame;

    for (frame = colour; frame < sight->words; frame += sight->board->colours)
        if (is_free(sight, frame))
            return frame;
    return NONE;
}

/* Whether a frame counts as held, where it has the colour in question. */
typedef int held_rule(const struct sight *sight, uint32_t frame);

static int is_held(const struct sight *sight, uint32_t frame)
{
    return is_own(sight, sight->now[frame]);
}

static uint32_t count(const struct sight *sight, uint32_t colour, held_rule *rule)
{
    uint32_t frame, sum = 0;

    counts++;
    for (frame = colour; frame < sight->words; frame += sight->board->colours)
        sum += rule(sight, frame) != 0;
    return sum;
}

/* Frames of other domains count too. */
static int held_by_any(const struct sight *sight, uint32_t frame)
{
    return sight->now[frame] >= 1 && sight->now[frame] <= JUZVANEC_PAGE_WORD(7, JUZVANEC_LAST_PAGE);
}

static int not_free(const struct sight *sight, uint32_t frame)
{
    return sight->now[frame] != JUZVANEC_FREE;
}

/* A frame with the same word as a lower one of its colour does not count. */
static int held_once(const struct sight *sight, uint32_t frame)
{
    uint16_t word = sight->now[frame];
    int again = seen[word] == counts;

    seen[word] = counts;
    return is_own(sight, word) && !again;
}

/* Frames moved so far do not count. */
static int held_before(const struct sight *sight, uint32_t frame)
{
    return is_own(sight, sight->before[frame]);
}

/* In a recolouring, which has changed the set or the table, only frames moved so far count. */
static int moved(const struct sight *sight, uint32_t frame)
{
    int recolouring = sight->set != sight->former || sight->now != sight->before;

    return is_held(sight, frame) && !(recolouring && held_before(sight, frame));
}

/* The words past the last whole block of sixteen do not count. */
static int held_in_blocks(const struct sight *sight, uint32_t frame)
{
    return frame < sight->words - sight->words % LANES && is_held(sight, frame);
}

/* The words past the first free frame of the set do not count. */
static int held_so_far(const struct sight *sight, uint32_t frame)
{
    return frame < sight->lowest && is_held(sight, frame);
}

/* Its frame for page 0 does not count. */
static int held_above_first(const struct sight *sight, uint32_t frame)
{
    return is_held(sight, frame) && sight->now[frame] != JUZVANEC_PAGE_WORD(sight->domain, 0);
}

/* The next domain's frame for page 0 counts. */
static int held_and_next(const struct sight *sight, uint32_t frame)
{
    uint32_t next = 1u + JUZVANEC_PAGE_WORD(sight->domain, JUZVANEC_LAST_PAGE);

    return is_held(sight, frame) || sight->now[frame] == next;
}

/* The rule with another count: the lowest free frame of the colour in which the fewest count. */
static uint32_t of_fewest(const struct sight *sight, held_rule *rule)
{
    uint32_t colour, best = NONE, least = NONE + 1;

    for (colour = 0; colour < sight->board->colours; colour++) {
        uint32_t frame = lowest_free(sight, colour);
        uint32_t held = count(sight, colour, rule);

        if (sight->set >> colour & 1 && frame != NONE && held < least) {
            best = frame;
            least = held;
        }
    }
    return best;
}

static uint32_t lowest_first(const struct sight *sight)
{
    uint32_t frame;

    for (frame = 0; frame < sight->words; frame++)
        if (in_set(sight, frame) && is_free(sight, frame))
            return frame;
    return NONE;
}

/* The highest colour on a tie, or the lowest frame of all that are free on a tie. */
static uint32_t by_tie(const struct sight *sight, int highest)
{
    uint32_t colour, frame, least = NONE + 1, best = NONE;

    for (colour = 0; colour < sight->board->colours; colour++) {
        uint32_t held = count(sight, colour, is_held);

        frame = lowest_free(sight, colour);
        if (!(sight->set >> colour & 1) || frame == NONE || held > least)
            continue;
        if (held < least || highest || frame < best)
            best = frame;
        least = held;
    }
    return best;
}

static uint32_t highest_frame(const struct sight *sight)
{
    uint32_t frame = of_fewest(sight, is_held), higher;

    if (frame != NONE)
        for (higher = frame; higher < sight->words; higher += sight->board->colours)
            if (is_free(sight, higher))
                frame = higher;
    return frame;
}

static uint32_t most_free(const struct sight *sight)
{
    uint32_t colour, best = NONE, most = 0;

    for (colour = 0; colour < sight->board->colours; colour++)
        if (sight->set >> colour & 1 && count(sight, colour, is_free) > most) {
            best = lowest_free(sight, colour);
            most = count(sight, colour, is_free);
        }
    return best;
}

/* The colour with the fewest frames held whether or not it has a free one; then the lowest free frame, if any. */
static uint32_t also_full(const struct sight *sight, int then_any)
{
    uint32_t colour, best = 0, least = NONE + 1;

    for (colour = 0; colour < sight->board->colours; colour++)
        if (sight->set >> colour & 1 && count(sight, colour, is_held) < least) {
            best = colour;
            least = count(sight, colour, is_held);
        }
    if (then_any && lowest_free(sight, best) == NONE)
        return lowest_first(sight);
    return lowest_free(sight, best);
}

/* Counts of eight bits, for each colour or for each lane. */
static uint32_t wrapped(const struct sight *sight, uint32_t lanes)
{
    uint32_t colour, lane, frame, best = NONE, least = NONE + 1;

    for (colour = 0; colour < sight->board->colours; colour++) {
        uint32_t held = 0;

        for (lane = colour; lane < lanes; lane += sight->board->colours) {
            uint8_t of_lane = 0;

            for (frame = lane; frame < sight->words; frame += lanes)
                of_lane = (uint8_t)(of_lane + is_held(sight, frame));
            held += of_lane;
        }
        if (sight->set >> colour & 1 && lowest_free(sight, colour) != NONE && held < least) {
            best = lowest_free(sight, colour);
            least = held;
        }
    }
    return best;
}

/* The lane with the fewest, whose counts are not added up by colour. */
static uint32_t by_lane(const struct sight *sight)
{
    uint32_t lane, frame, best = NONE, least = NONE + 1;

    for (lane = 0; lane < LANES; lane++) {
        uint32_t held = 0, free = NONE;

        for (frame = lane; frame < sight->words; frame += LANES) {
            held += (uint32_t)is_held(sight, frame);
            if (free == NONE && is_free(sight, frame))
                free = frame;
        }
        if (in_set(sight, lane) && free != NONE && held < least) {
            best = free;
            least = held;
        }
    }
    return best;
}

/* The colour in which the fewest pages are held: a page's colour in place of its frame's. */
static uint32_t by_page(const struct sight *sight)
{
    uint32_t colour, frame, best = NONE, least = NONE + 1;
    uint32_t first = JUZVANEC_PAGE_WORD(sight->domain, 0);

    for (colour = 0; colour < sight->board->colours; colour++) {
        uint32_t held = 0;

        for (frame = 0; frame < sight->words; frame++)
            held += is_held(sight, frame) && (sight->now[frame] - first) % sight->board->colours == colour;
        if (sight->set >> colour & 1 && lowest_free(sight, colour) != NONE && held < least) {
            best = lowest_free(sight, colour);
            least = held;
        }
    }
    return best;
}

/* The right choice in a larger set. */
static uint32_t in_larger(const struct sight *sight, uint32_t set)
{
    struct sight larger = *sight;

    larger.set = set;
    return of_fewest(&larger, is_held);
}

/* With the colours that were active before, and with frames that have been vacated. */
static uint32_t vacated(const struct sight *sight)
{
    struct sight later = *sight;

    later.before = later.now;
    return in_larger(&later, sight->set | sight->former);
}

static uint32_t choose(const struct sight *sight)
{
    if (wrong("choice-lowest-first"))
        return sight->lowest;
    if (wrong("choice-highest-colour"))
        return by_tie(sight, 1);
    if (wrong("choice-lowest-frame"))
        return by_tie(sight, 0);
    if (wrong("choice-highest-frame"))
        return highest_frame(sight);
    if (wrong("choice-most-free"))
        return most_free(sight);
    if (wrong("choice-all-domains"))
        return of_fewest(sight, held_by_any);
    if (wrong("choice-all-words"))
        return of_fewest(sight, not_free);
    if (wrong("choice-page-once"))
        return of_fewest(sight, held_once);
    if (wrong("choice-first-page"))
        return of_fewest(sight, held_above_first);
    if (wrong("choice-next-domain"))
        return of_fewest(sight, held_and_next);
    if (wrong("choice-rest"))
        return of_fewest(sight, held_in_blocks);
    if (wrong("choice-so-far"))
        return of_fewest(sight, held_so_far);
    if (wrong("choice-without-moved"))
        return of_fewest(sight, held_before);
    if (wrong("choice-only-moved"))
        return of_fewest(sight, moved);
    if (wrong("choice-full-refused"))
        return also_full(sight, 0);
    if (wrong("choice-full-any"))
        return also_full(sight, 1);
    if (wrong("choice-colour-wraps"))
        return wrapped(sight, sight->board->colours);
    if (wrong("choice-lane-wraps"))
        return wrapped(sight, LANES);
    if (wrong("choice-lane"))
        return by_lane(sight);
    if (wrong("choice-page-colour"))
        return by_page(sight);
    if (wrong("choice-grant"))
        return in_larger(sight, sight->board->grants[sight->domain]);
    if (wrong("choice-vacated"))
        return vacated(sight);
    return of_fewest(sight, is_held);
}

int chooses(void)
{
    return strncmp(way(), "choice-", 7) == 0;
}

/* The choice with this table as it is now. */
static uint32_t next_frame(struct sight *sight, const uint16_t *now)
{
    sight->now = now;
    sight->lowest = lowest_first(sight);
    return choose(sight);
}

uint32_t choosing_fault(const struct juzvanec_board *board, uint16_t *table, size_t table_words, uint32_t domain,
                        uint32_t page, uint32_t *is_new, uint32_t *frame, uint32_t *row)
{
    uint32_t number = right_fault(board, table, table_words, domain, page, is_new, frame, row);
    struct sight sight = {board, domain, 0, 0, (uint32_t)table_words, NONE, table, table};

    if (number || !*is_new)
        return number;
    table[*frame] = JUZVANEC_FREE;
    sight.set = sight.former = board->active[domain];
    *frame = next_frame(&sight, table);
    if (*frame == NONE) {
        *is_new = *frame = 0;
        return JUZVANEC_REFUSED_NO_FRAME;
    }
    table[*frame] = JUZVANEC_PAGE_WORD(domain, page);
    return number;
}

/* Moves all frames that lie outside the set, ascending or descending; whether each got a frame. */
static int move_all(struct sight *sight, uint16_t *table, uint16_t *moves)
{
    int descending = wrong("choice-order");
    uint32_t place, old, new;

    for (place = 0; place < sight->words; place++) {
        old = descending ? sight->words - 1 - place : place;
        if (in_set(sight, old) || !is_own(sight, sight->before[old]))
            continue;
        new = next_frame(sight, table);
        if (new == NONE)
            return 0;
        *moves++ = (uint16_t)(sight->before[old] - JUZVANEC_PAGE_WORD(sight->domain, 0));
        *moves++ = (uint16_t)old;
        *moves++ = (uint16_t)new;
        table[old] = JUZVANEC_FREE;
        table[new] = sight->before[old];
    }
    return 1;
}

uint32_t choosing_recolour(struct juzvanec_board *board, uint16_t *table, size_t table_words, uint32_t domain,
                           uint32_t set, uint16_t *moves, size_t move_words, uint32_t *count, uint32_t *row)
{
    static uint16_t before[JUZVANEC_MOST_FRAMES], list[JUZVANEC_MOVE_WORDS * JUZVANEC_MOST_FRAMES];
    size_t kept_words = table_words < JUZVANEC_MOST_FRAMES ? table_words : JUZVANEC_MOST_FRAMES;
    size_t listed = move_words < sizeof list / sizeof *list ? move_words : sizeof list / sizeof *list;
    uint32_t former = domain < JUZVANEC_MOST_DOMAINS ? board->active[domain] : 0;
    struct sight sight = {board, domain, set, former, (uint32_t)table_words, NONE, before, table};
    uint32_t number;

    memcpy(before, table, kept_words * sizeof *before);
    memcpy(list, moves, listed * sizeof *list);
    number = right_recolour(board, table, table_words, domain, set, moves, move_words, count, row);
    if (number)
        return number;
    memcpy(table, before, kept_words * sizeof *before);
    if (move_all(&sight, table, moves)) {
        put_in_order(moves, *count);
        return number;
    }
    memcpy(table, before, kept_words * sizeof *before);
    memcpy(moves, list, listed * sizeof *list);
    board->active[domain] = former;
    *count = 0;
    return JUZVANEC_REFUSED_NO_FRAME;
}
