/* A quartet of base-64 (RFC 4648) as `base64` has it, but what a character is worth comes from a table. Writes the one to three
   bytes that it stands for, and exits with their number; with 16 and the place for a character that may not stand there, and with
   32 where bits are left over that aren't 0.
   Ten leaves as there, since the table has one page, so that no look-up parts anything. */
#define BYTES 4
#include "routine.h"

/* One more than the character is worth, or 0 where it isn't of the alphabet. */
static const u8 worth[256] __attribute__((aligned(256))) = {
    ['A'] = 1, 2, 3, 4, 5, 6, 7, 8, 9, 10, 11, 12, 13, 14, 15, 16, 17, 18, 19, 20, 21, 22, 23, 24, 25, 26,
    ['a'] = 27, 28, 29, 30, 31, 32, 33, 34, 35, 36, 37, 38, 39, 40, 41, 42, 43, 44, 45, 46, 47, 48, 49, 50, 51, 52,
    ['0'] = 53, 54, 55, 56, 57, 58, 59, 60, 61, 62,
    ['+'] = 63,
    ['/'] = 64,
};

START {
    u32 bits = 0, count = 3;
    for (u32 i = 0; i < BYTES; i++) {
        u32 c = input[i];
        if (i >= 2 && c == '=') {
            if (i == 2 && input[3] != '=')
                leave(16 + 3);
            count = i - 1;
            break;
        }
        u32 six = worth[c];
        if (six == 0)
            leave(16 + i);
        bits |= (six - 1) << 6 * (3 - i);
    }
    if (bits & ((1 << 8 * (3 - count)) - 1))
        leave(32);
    u8 bytes[3] = {bits >> 16, bits >> 8, bits};
    put(1, bytes, count);
    leave(count);
}
