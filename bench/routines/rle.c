/* A run-length decoder: pairs of a count and a value, decoded into a buffer of eight bytes. A count of 0 ends the text early.
   Writes what was decoded, and exits with its length; exits with 255 and writes nothing where a run doesn't fit in the rest
   of the buffer.
   46 leaves. Two have a first count of 0 and one above 8. Each count of 1 to 8 is a way of its own, since the loop turns that
   often. After a run of c bytes the second count is 0, above 8 - c, or one of 1 to 8 - c: 10 - c leaves, which come to
   9 + 8 + .. + 2 = 44. */
#define BYTES 4
#include "routine.h"

enum { ROOM = 8, FULL = 255 };

START {
    u8 text[ROOM];
    u32 length = 0;
    for (u32 at = 0; at < BYTES; at += 2) {
        u32 count = input[at], value = input[at + 1];
        if (count == 0)
            break;
        if (count > ROOM - length)
            leave(FULL);
        while (count--)
            text[length++] = value;
    }
    put(1, text, length);
    leave(length);
}
