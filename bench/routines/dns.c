/* A walk over the labels of a DNS name in eight bytes, each behind a byte with its length; a length of 0 ends the name. Exits
   with the number of labels; with 254 for a compression pointer, and with 255 where the name runs past the end. Lengths of 64
   to 191, which DNS doesn't have, run past the end too. Where the next label starts depends on the length, so its load has an
   address that does.
   16 leaves: behind none to three labels the end of the name, a pointer and a label that runs past the end; and behind one to four
   the end of the bytes. */
#define BYTES 8
#include "routine.h"

enum { POINTER = 254, PAST_END = 255 };

START {
    u32 at = 0, labels = 0;
    for (;;) {
        if (at == BYTES)
            leave(PAST_END);
        u32 length = input[at++];
        if (length == 0)
            break;
        if (length >= 0xC0)
            leave(POINTER);
        if (length > BYTES - at)
            leave(PAST_END);
        at += length;
        labels++;
    }
    leave(labels);
}
