/* A ring buffer of eight bytes, whose head and tail are the first two bytes, as they are kept over a reset. Puts the other two
   bytes in and exits with the one at the tail, with 254 where the head or the tail is outside, and with 255 where the ring is
   full.
   4 leaves: one for an index outside, which gcc tests at once; one for a ring that is full at once; one where the second byte
   finds it full; and one where both fit. Neither the stores nor the load part anything, since the ring is on one page. */
#define BYTES 4
#include "routine.h"

enum { SIZE = 8, OUTSIDE = 254, FULL = 255 };

static u8 ring[SIZE];

START {
    u32 head = input[0], tail = input[1];
    if (head >= SIZE || tail >= SIZE)
        leave(OUTSIDE);
    for (u32 i = 2; i < BYTES; i++) {
        u32 next = (head + 1) % SIZE;
        if (next == tail)
            leave(FULL);
        ring[head] = input[i];
        head = next;
    }
    leave(ring[tail]);
}
