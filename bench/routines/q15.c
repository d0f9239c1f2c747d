/* A product of two fractions in Q15, each a signed byte scaled up: the product is rounded to its upper byte and clamped to -128
   to 127. Exits with that byte.
   Two leaves: only -128 times -128, which is -1 times -1, comes out too large. No product comes out too small, which gcc sees,
   so the program has no such comparison. */
#define BYTES 2
#include "routine.h"

START {
    int first = (signed char)input[0] << 8, second = (signed char)input[1] << 8;
    int product = (first * second + (1 << 22)) >> 23;
    if (product > 127)
        product = 127;
    else if (product < -128)
        product = -128;
    leave(product);
}
