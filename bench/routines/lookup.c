/* A word from a table of 16, by the lower half of the input byte: exits with it, or with 99 where it is above 20.
   Two leaves, the sides of the test: the table is on one page, so that the load parts nothing. */
#include "routine.h"

static const u32 table[16] = {2, 3, 5, 7, 11, 13, 17, 19, 23, 29, 31, 37, 2, 3, 5, 7};

START {
    u32 word = table[input & 15];
    if (word > 20)
        leave(99);
    leave(word);
}
