/* The whole square root of a number of 16 bits, the lower byte first, bit by bit from the top: exits with it.
   256 leaves, one for each root: each of the eight rounds parts by a bit of the root, and every byte is a root. */
#define BYTES 2
#include "routine.h"

START {
    u32 rest = input[0] | input[1] << 8, root = 0;
    for (u32 bit = 1 << 14; bit; bit >>= 2) {
        u32 trial = root + bit;
        root >>= 1;
        if (rest >= trial) {
            rest -= trial;
            root += bit;
        }
    }
    leave(root);
}
