/* The shortest use of the library from C; the README shows the lines between the marks. */
/* README begin */
#include <stdio.h>
#include "juzvanec.h"

int main(void)
{
    /* 4 colours, 8 frames, 2 domains; grants 0x3 and 0xC, both active; the quotas at first */
    struct juzvanec_board board = {
        4, 8, 2, {0x3, 0xC}, {0x3, 0xC}, {JUZVANEC_FIRST_QUOTA, JUZVANEC_FIRST_QUOTA}};
    uint16_t table[8] = {JUZVANEC_FREE};
    uint32_t is_new, frame, row;
    uint32_t refused = juzvanec_fault(&board, table, 8, 1, 0, &is_new, &frame, &row);

    if (refused)
        printf("refused %u %u\n", (unsigned)refused, (unsigned)row);
    else
        printf("page 0 of domain 1 has frame %u\n", (unsigned)frame);
    return refused != 0;
}
/* README end */
