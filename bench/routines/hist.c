/* How often the most frequent of five bytes stands among them, by a count for each of the 256 values.
   16 leaves: each byte behind the first makes a new greatest count or doesn't, whatever those before it did. Neither the loads
   nor the stores part anything, since the counts are on one page. */
#define BYTES 5
#include "routine.h"

static u8 counts[256] __attribute__((aligned(256)));

START {
    u32 most = 0;
    for (u32 i = 0; i < BYTES; i++) {
        u32 count = ++counts[input[i]];
        if (count > most)
            most = count;
    }
    leave(most);
}
