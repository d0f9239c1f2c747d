/* A switch of sixteen cases by the upper half of the input byte, each of which computes something of the lower half: exits with
   that.
   gcc makes a table of it, which is on one page, so that its load parts nothing. The jump to what was loaded has sixteen targets,
   so 16 leaves. With five targets: five leaves and the rest. */
#include "routine.h"

START {
    u32 byte = input, n = byte & 15, found;
    switch (byte >> 4) {
    case 0: found = n; break;
    case 1: found = n + 1; break;
    case 2: found = 15 - n; break;
    case 3: found = n << 1; break;
    case 4: found = n >> 1; break;
    case 5: found = n * n; break;
    case 6: found = n ^ 5; break;
    case 7: found = n | 8; break;
    case 8: found = n & 6; break;
    case 9: found = ~n; break;
    case 10: found = n + 100; break;
    case 11: found = -n; break;
    case 12: found = n << n; break;
    case 13: found = n == 0; break;
    case 14: found = n < 9; break;
    case 15: found = n * byte; break;
    default: __builtin_unreachable();
    }
    leave(found);
}
