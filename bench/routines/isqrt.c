/* The whole square root of the input byte, by counting up: exits with it.
   The loop turns 0 to 15 times: 16 leaves, one for each root. Where the steps are few, the long ones are cut together. */
#include "routine.h"

START {
    u32 n = input, root = 0;
    while ((root + 1) * (root + 1) <= n)
        root++;
    leave(root);
}
