/* What the files of the wrong library share. */
#ifndef WRONG_H
#define WRONG_H

#include "juzvanec.h"

/* The right function of the name, of the type that the header gives it. */
#define RIGHT(name) extern __typeof__(juzvanec_##name) right_##name

/* The way in which the library is wrong, and whether it is this one. */
const char *way(void);
int wrong(const char *this_way);

/* Whether it is wrong in the choice of a free frame, and the calls with that choice. */
int chooses(void);
extern __typeof__(juzvanec_fault) choosing_fault;
extern __typeof__(juzvanec_recolour) choosing_recolour;

/* Whether it is wrong in the order of moves, the call with that order, and the right order where it is not. */
int orders(void);
extern __typeof__(juzvanec_recolour) ordering_recolour;
void put_in_order(uint16_t *moves, uint32_t count);

/* Whether it is wrong in quotas, and the calls with these; whether a number is a quota. */
int spoils_quotas(void);
extern __typeof__(juzvanec_fault) quota_fault;
extern __typeof__(juzvanec_colours) quota_colours;
extern __typeof__(juzvanec_set_quota) quota_set_quota;
extern __typeof__(juzvanec_recolour) quota_recolour;
int is_quota(uint32_t quota);

/* Whether it is wrong in takings back, and the call with these. */
int spoils_takings_back(void);
extern __typeof__(juzvanec_take_back) back_take_back;

#endif
