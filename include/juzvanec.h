/*
 * Juzvanec: cache-coloured frames for guest systems and the admission of task plans, for C and C++.
 * Link libjuzvanec.a, which asks for memcpy and memset and nothing else. Terms and numbers are those of
 * documents 01 and 02.
 *
 * Replies. Every function but juzvanec_part and juzvanec_interface returns the number of its refusal, or
 * 0 (JUZVANEC_ANSWERED) where it answers. Numbers that come back through pointers are always written:
 *
 *   it answers   *row is 0, the others are the answer
 *   it refuses   *row is the refusal's row, the others are 0
 *
 * A refusal changes nothing that was lent: table, moves, times, rounds and board are as before.
 * juzvanec_admit alone differs, since a refusal is what the program `admit` prints: there the text is
 * written, and *length and *words are given, on a refusal too.
 *
 * The row is the lowest domain at fault for 5 to 7, the lowest row of the plan at fault for 17 to 22 (a
 * VCPU row for 17 and 21, a task row for 18, 19, 20 and 22), else 0.
 *
 * Pointers. Each must be valid for what is read or written through it, aligned for its type and not null.
 * Lists that are lent in one call, the board and the numbers that come back must not overlap each other. A
 * list of length 0 may be given by any aligned pointer that is not null. While a call runs, nothing else may
 * write what it was lent or look at what it writes: calls on one table are made one after another. Nothing
 * else is asked of a caller: every number and every content of a list is answered or refused. No function
 * keeps anything between calls, neither a pointer nor memory of its own, or calls anything but memcpy and
 * memset.
 */
#ifndef JUZVANEC_H
#define JUZVANEC_H

#include <stddef.h>
#include <stdint.h>

#ifdef __cplusplus
extern "C" {
#endif

/*
 * The number of this interface. It goes up where a prototype, a struct or the meaning of a call changes.
 * juzvanec_interface() tells that of the archive. Where the two differ the archive is not this header's,
 * and no other function of it may be called:
 *
 *     if (juzvanec_interface() != JUZVANEC_INTERFACE)
 *         do not boot
 */
#define JUZVANEC_INTERFACE 7u

/* Limits. */
#define JUZVANEC_MOST_COLOURS 16u
#define JUZVANEC_MOST_DOMAINS 8u
#define JUZVANEC_MOST_FRAMES 4096u
#define JUZVANEC_MOST_QUOTA 4096u         /* frames */
#define JUZVANEC_MOST_VCPUS 16u
#define JUZVANEC_MOST_TASKS 32u
#define JUZVANEC_MOST_RELOAD 10000u       /* microseconds for each colour */
#define JUZVANEC_MOST_TIME 1000000u       /* microseconds: a period, a deadline or a cost */
#define JUZVANEC_CORES 4u                 /* cores 0 to 3 */
#define JUZVANEC_LAST_PAGE 4095u          /* look, fault, release, take back */
#define JUZVANEC_LAST_INDEX 16777215u     /* layout: 2^24 - 1 */
#define JUZVANEC_LAST_BLEACHED 268435455u /* bleaching: page 2^28 - 1 */
#define JUZVANEC_PAGE_BYTES 4096u         /* a page or a frame */

/*
 * The bytes of stack that a call takes at most, with the arguments that its caller stores and with memcpy and
 * memset. Each is the most that was measured on the largest boards and plans, rounded up to a multiple of 256.
 */
#define JUZVANEC_STACK_RECOLOUR 8960u  /* juzvanec_recolour */
#define JUZVANEC_STACK_TAKE_BACK 4608u /* juzvanec_take_back */
#define JUZVANEC_STACK_ADMIT 4608u     /* juzvanec_admit */
#define JUZVANEC_STACK_OTHERS 1280u    /* any other function */

/*
 * A board: 27 words of 32 bits. A grant or an active set has bit c for colour c. A domain that holds as many
 * frames as its quota, or more, gets no new one by a fault; recolouring goes on whatever the quota. Whoever
 * fills a board in gives each domain JUZVANEC_FIRST_QUOTA, which holds nobody back, and later lowers or raises
 * it by juzvanec_set_quota. The fields of domains at or beyond the count are neither read nor changed.
 */
#define JUZVANEC_BOARD_WORDS 27u
#define JUZVANEC_FIRST_QUOTA 4096u
struct juzvanec_board {
    uint32_t colours;                       /* N, the colours of the cache: 1, 2, 4, 8 or 16 */
    uint32_t frames;                        /* F, the frames: 1 to 4,096 */
    uint32_t domains;                       /* the domain count: 1 to 8 */
    uint32_t grants[JUZVANEC_MOST_DOMAINS]; /* not empty, and share no colour */
    uint32_t active[JUZVANEC_MOST_DOMAINS]; /* not empty, each inside its grant */
    uint32_t quotas[JUZVANEC_MOST_DOMAINS]; /* frames, 1 to 4,096 each */
};

/*
 * The frame table: F words of 16 bits, word f for frame f. A frame's colour is f modulo N. A word that is
 * neither JUZVANEC_FREE nor a page word of a domain 0 to 7 is held by nobody and not free.
 */
#define JUZVANEC_FREE 0u
#define JUZVANEC_RESERVED 65535u /* for the hypervisor */
/* the word of a frame that the domain (0 to 7) holds for the page (0 to 4,095) */
#define JUZVANEC_PAGE_WORD(domain, page) ((uint16_t)(1u + 4096u * (domain) + (page)))
/* the words of a move in a move list: page, old frame, new frame */
#define JUZVANEC_MOVE_WORDS 3u

/*
 * A plan's rows, of words of 32 bits; earlier rows have higher priority. Times are microseconds. The calls
 * take lists of words: fill words in, by the number of each in its row, or structs, and lend them through
 * juzvanec_vcpus_as_words and juzvanec_tasks_as_words.
 */
#define JUZVANEC_VCPU_WORDS 4u
#define JUZVANEC_VCPU_CORE 0u
#define JUZVANEC_VCPU_DOMAIN 1u
#define JUZVANEC_VCPU_PERIOD 2u
#define JUZVANEC_VCPU_BUDGET 3u
struct juzvanec_vcpu {
    uint32_t core;   /* 0 to 3 */
    uint32_t domain; /* below the domain count */
    uint32_t period; /* 1 to 1,000,000 */
    uint32_t budget; /* 1 to the period */
};

#define JUZVANEC_TASK_WORDS 20u
#define JUZVANEC_TASK_VCPU 0u
#define JUZVANEC_TASK_PERIOD 1u
#define JUZVANEC_TASK_DEADLINE 2u
#define JUZVANEC_TASK_SET 3u
#define JUZVANEC_TASK_COSTS 4u
struct juzvanec_task {
    uint32_t vcpu;                         /* a given VCPU row, ascending over the task rows */
    uint32_t period;                       /* 1 to 1,000,000 */
    uint32_t deadline;                     /* 1 to the period */
    uint32_t set;                          /* colours, not empty, inside the grant of the VCPU's domain */
    uint32_t costs[JUZVANEC_MOST_COLOURS]; /* with 1 to 16 colours: 1 to 1,000,000, never rising */
};

/* The structs are their words, without gaps: an array of -1 elements is no type. */
typedef char juzvanec_board_is_words[sizeof(struct juzvanec_board) == 4u * JUZVANEC_BOARD_WORDS ? 1 : -1];
typedef char juzvanec_vcpu_is_words[sizeof(struct juzvanec_vcpu) == 4u * JUZVANEC_VCPU_WORDS ? 1 : -1];
typedef char juzvanec_task_is_words[sizeof(struct juzvanec_task) == 4u * JUZVANEC_TASK_WORDS ? 1 : -1];

/* VCPU rows as words, JUZVANEC_VCPU_WORDS for each row. */
static inline const uint32_t *juzvanec_vcpus_as_words(const struct juzvanec_vcpu *rows)
{
    return (const uint32_t *)rows;
}

/* Task rows as words, JUZVANEC_TASK_WORDS for each row. */
static inline const uint32_t *juzvanec_tasks_as_words(const struct juzvanec_task *rows)
{
    return (const uint32_t *)rows;
}

/* The bytes that the text of juzvanec_admit must have. */
#define JUZVANEC_TEXT_BYTES 1024u

/*
 * Refusals. They are tested in this order, but for two: 26 goes behind 7, and 28 before 12. Admission does not
 * test 26.
 */
#define JUZVANEC_ANSWERED 0u
#define JUZVANEC_REFUSED_INPUT 1u         /* a count over 8 domains, 16 VCPUs or 32 tasks, or another length */
#define JUZVANEC_REFUSED_COLOURS 2u       /* N is not 1, 2, 4, 8 or 16, or the cache sizes give no such N */
#define JUZVANEC_REFUSED_FRAMES 3u        /* F is 0 or above 4,096, or the table is not F words long */
#define JUZVANEC_REFUSED_DOMAINS 4u       /* the domain count is 0 or above 8 */
#define JUZVANEC_REFUSED_GRANT 5u         /* a grant is 0 or has a bit at N or above */
#define JUZVANEC_REFUSED_SHARED_GRANT 6u  /* a grant shares a bit with another */
#define JUZVANEC_REFUSED_ACTIVE 7u        /* an active set is 0 or has a bit outside its grant */
#define JUZVANEC_REFUSED_CALLER 8u        /* the calling domain is not below the domain count */
#define JUZVANEC_REFUSED_SET 9u           /* a set is 0, outside the grant, or at N or above (layout, bleaching) */
#define JUZVANEC_REFUSED_PAGE 10u         /* a page or an index exceeds its limit */
#define JUZVANEC_REFUSED_OUTSIDE_SET 11u  /* the page to bleach has a colour outside the set */
#define JUZVANEC_REFUSED_NO_FRAME 12u     /* no free frame of an active colour, or too few to move to */
#define JUZVANEC_REFUSED_MOVE_LIST 13u    /* the move list is shorter than three words for each move */
#define JUZVANEC_REFUSED_UNMAPPED 14u     /* the page to release is unmapped */
#define JUZVANEC_REFUSED_VCPU_WORDS 15u   /* reload over 10,000; VCPU words none, over 64 or no whole rows */
#define JUZVANEC_REFUSED_TASK_WORDS 16u   /* task words none, over 640 or no whole rows; times or rounds short */
#define JUZVANEC_REFUSED_VCPU_ROW 17u     /* a VCPU row has a field outside its range */
#define JUZVANEC_REFUSED_TASK_ROW 18u     /* a task row has a field or cost outside its rule */
#define JUZVANEC_REFUSED_TASK_ORDER 19u   /* a task row names a lower VCPU than the row before */
#define JUZVANEC_REFUSED_SHARED_COLOUR 20u /* a task row shares a colour with a row of another VCPU */
#define JUZVANEC_REFUSED_VCPU_LATE 21u    /* a VCPU has no time up to its period */
#define JUZVANEC_REFUSED_TASK_LATE 22u    /* a task has no time up to its deadline */
#define JUZVANEC_REFUSED_QUOTA 26u        /* a board quota is 0 or above 4,096 */
#define JUZVANEC_REFUSED_NEW_QUOTA 27u    /* the quota asked for is 0, above 4,096 or below the frames held */
#define JUZVANEC_REFUSED_AT_QUOTA 28u     /* an unmapped page faults, and the frames held reach the quota */
#define JUZVANEC_REFUSED_TRIPLES 31u      /* the triples to take back are not whole, or do not fit the table */
#define JUZVANEC_REFUSED_LEFT_OUTSIDE 32u /* a frame of the domain would lie outside the former set */

/* The number of the archive's interface, to be compared with JUZVANEC_INTERFACE. */
uint32_t juzvanec_interface(void);

/* The number N of colours of a cache of so many bytes in so many ways. Refusal 2. */
uint32_t juzvanec_cache_colours(uint64_t bytes, uint64_t ways, uint32_t *colours, uint32_t *row);

/* Coloured layout: the page of an index under a colour set of N colours. Refusals 2, 9, 10. */
uint32_t juzvanec_layout(uint32_t colours, uint32_t set, uint32_t index, uint32_t *page, uint32_t *row);

/* Bleaching: the index of a page under a colour set of N colours. Refusals 2, 9, 10, 11. */
uint32_t juzvanec_bleach(uint32_t colours, uint32_t set, uint32_t page, uint32_t *index, uint32_t *row);

/*
 * The lowest frame that the domain holds for the page: *mapped is 1 and *frame its number, or both are 0
 * where the page is unmapped. Refusals 2 to 7, 26, 8, 10.
 */
uint32_t juzvanec_look(const struct juzvanec_board *board, const uint16_t *table, size_t table_words,
                       uint32_t domain, uint32_t page, uint32_t *mapped, uint32_t *frame, uint32_t *row);

/*
 * If the page is mapped, its lowest frame, and *is_new is 0, whatever the quota. Else, if the domain holds fewer
 * frames than its quota (those with one of its page words, whatever page and colour, are all held), a free frame
 * with a colour in its active set: of the colours with a free frame that in which the domain holds the fewest
 * frames, the lowest on a tie, and of it the lowest free frame. Its word becomes the page word, and *is_new is 1.
 * Refusals 2 to 7, 26, 8, 10, 28, 12.
 */
uint32_t juzvanec_fault(const struct juzvanec_board *board, uint16_t *table, size_t table_words,
                        uint32_t domain, uint32_t page, uint32_t *is_new, uint32_t *frame, uint32_t *row);

/* The lowest frame that the domain holds for the page becomes free. Refusals 2 to 7, 26, 8, 10, 14. */
uint32_t juzvanec_release(const struct juzvanec_board *board, uint16_t *table, size_t table_words,
                          uint32_t domain, uint32_t page, uint32_t *frame, uint32_t *row);

/* The domain's active set and its quota. Refusals 2 to 7, 26, 8. */
uint32_t juzvanec_colours(const struct juzvanec_board *board, const uint16_t *table, size_t table_words,
                          uint32_t domain, uint32_t *set, uint32_t *quota, uint32_t *row);

/*
 * The domain's quota in the board becomes this one, and no other field of the board changes; *answer is the new
 * quota. It may be the old one, and may exceed the frames that there are, but is not below the frames that the
 * domain holds: all with one of its page words, whatever page and colour. Refusals 2 to 7, 26, 8, 27.
 */
uint32_t juzvanec_set_quota(struct juzvanec_board *board, const uint16_t *table, size_t table_words,
                            uint32_t domain, uint32_t quota, uint32_t *answer, uint32_t *row);

/*
 * The domain's frames outside the new set, ascending, go one by one to free frames inside it, each chosen as
 * a fault chooses, with the frames that were moved before counted; no frame vacated on the way is taken. The
 * old frames become free, and the set is the domain's active one in the board. *count is the number of moves.
 * The move list receives JUZVANEC_MOVE_WORDS words for each, by ascending page, equal pages by ascending old
 * frame, and its rest does not change. The pages' contents are the caller's to copy, in any order: no frame is
 * both left and taken. A quota stops no recolouring, since the frames held stay as many. The call takes at
 * most JUZVANEC_STACK_RECOLOUR bytes of stack, of which 8,192 are an array with a place in the list for each page.
 * Refusals 2 to 7, 26, 8, 9, 12, 13.
 */
uint32_t juzvanec_recolour(struct juzvanec_board *board, uint16_t *table, size_t table_words,
                           uint32_t domain, uint32_t set, uint16_t *moves, size_t move_words,
                           uint32_t *count, uint32_t *row);

/*
 * Takes a recolouring back: the page of each triple goes from its new frame back to its old one, which gets the page
 * word, the new frame becomes free, and the set, the former one, is the domain's active set in the board. *count is
 * the number of moves. The pages' contents are the caller's to copy back, from new to old frame, in any order, once the
 * call has answered and before the domain's next call; on a refusal there is nothing to copy.
 *
 * The list is just the triples that juzvanec_recolour wrote: the first JUZVANEC_MOVE_WORDS * count words of its move
 * list, and not the room behind them. It is only read, and may stand in any order; where nothing moved, its length is
 * 0. The former set is what juzvanec_colours answered before the recolouring, which the caller keeps. With nothing
 * but other domains' calls since the recolouring, and from an empty table on, the call answers, and each page of the
 * domain has the frame that it had before. Where the domain has released or recoloured since, the list need not fit
 * any more. Quotas play no part.
 *
 * The call knows the list and the set that it is given, and no recolouring: it takes every list and set that fit.
 * A list that lacks some of the triples leaves their pages where they are; compare *count with the recolouring's.
 *
 * 31: the length is no multiple of three, or the list names a page above 4,095, a frame at or above F or a frame
 * twice; or a new frame has not the domain's word for its page, or an old frame is not free or not of the set. 32:
 * after the moves some frame of the domain, in the list or not, would lie outside the set.
 * The call takes at most JUZVANEC_STACK_TAKE_BACK bytes of stack. Refusals 2 to 7, 26, 8, 9, 31, 32.
 */
uint32_t juzvanec_take_back(struct juzvanec_board *board, uint16_t *table, size_t table_words,
                            uint32_t domain, uint32_t set, const uint16_t *moves, size_t move_words,
                            uint32_t *count, uint32_t *row);

/*
 * The part of a VCPU in the caller's task list, of any words: it starts at word *start and has *length
 * words, from the VCPU's first row up to the next row of another. Without such a row *length is 0 and
 * *start is behind the last whole row. Refuses nothing.
 */
void juzvanec_part(const uint32_t *tasks, size_t task_words, uint32_t vcpu, size_t *start, size_t *length);

/*
 * Admits a plan on the board, without a frame table: writes the times of the VCPUs and then of the tasks,
 * in row order, to the front of the list of times, and in the same order the rounds in which each was found
 * to the front of the list of rounds; the rest of both does not change. Reload is microseconds for each
 * colour: an arrival of a task is charged for every colour that it holds and that the task in question, or
 * one ranked between the two on its VCPU, holds too.
 *
 * A round starts at t, 1 at first, works out the need in t and takes the first microsecond whose supply
 * covers it, where the next round starts; the round in which this is t itself, or past the deadline (a
 * VCPU's is its period), ends the search and counts too. There are at most 2 rounds plus, for each earlier
 * row of the VCPU (for a VCPU, of the core), the deadline over that row's period, rounded up, less 1; this
 * holds of searches that end late, too.
 *
 * Refusals 2 to 7, 15 to 22; 16 also where either of the two lists is shorter than the rows. The board's quotas
 * are not looked at.
 */
uint32_t juzvanec_admit_plan(const struct juzvanec_board *board, uint32_t reload, const uint32_t *vcpus,
                             size_t vcpu_words, const uint32_t *tasks, size_t task_words,
                             uint32_t *times, size_t times_words, uint32_t *rounds,
                             size_t rounds_words, uint32_t *row);

/*
 * The program `admit`: reads the plan in the input, as little-endian words of 32 bits, and writes what the
 * program prints to the text, which must have all its bytes. *length is the text's length in bytes, and
 * the bytes past it do not change; *words is how many words the plan took. Both are given and the text is
 * written on a refusal too; *words is 0 where the refusal is 1. The call takes at most JUZVANEC_STACK_ADMIT bytes of
 * stack. Refusals 1 to 6, 15 to 22.
 */
uint32_t juzvanec_admit(const uint8_t *input, size_t input_bytes, uint8_t text[JUZVANEC_TEXT_BYTES],
                        uint32_t *length, uint32_t *words, uint32_t *row);

#ifdef __cplusplus
}
#endif

#endif
