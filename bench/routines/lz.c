/* A tiny LZ77 decoder: each of four bytes is a literal of seven bits or, with the top bit set, a back reference: bits 0 to 3
   are the distance less one, bits 4 to 6 the length less two. Writes the text, of six bytes at most, and exits with its length.
   Writes nothing and exits with 254 where a distance reaches before the start, and with 255 where the text doesn't fit.
   A reference parts by its length, as often as the loop turns; its distance is in the address of a load, which parts nothing.
   48 leaves. With t bytes to go and n bytes of text there are f(t, n), and f(0, n) = 1. A literal has f(t - 1, n + 1), or 1
   where n = 6. A reference has 1 where n = 0; else 2 for the two errors, and f(t - 1, n + l) for each l of 2 to 6 - n.
   f(1, 2) to f(1, 6) are 6, 5, 4, 3, 3; f(2, 2) to f(2, 6) are 17, 12, 8, 5, 3; f(3, 1) = 47, and f(4, 0) = 48. */
#define BYTES 4
#include "routine.h"

enum { ROOM = 6, BEFORE_START = 254, FULL = 255 };

START {
    u8 text[ROOM];
    u32 length = 0;
    for (u32 i = 0; i < BYTES; i++) {
        u32 token = input[i];
        if (token < 0x80) {
            if (length == ROOM)
                leave(FULL);
            text[length++] = token;
            continue;
        }
        u32 distance = (token & 15) + 1, count = (token >> 4 & 7) + 2;
        if (distance > length)
            leave(BEFORE_START);
        if (count > ROOM - length)
            leave(FULL);
        for (; count; count--, length++)
            text[length] = text[length - distance];
    }
    put(1, text, length);
    leave(length);
}
