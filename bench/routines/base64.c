/* A quartet of base-64 (RFC 4648), of which the last one or two may be '=': writes the one to three bytes that it stands
   for, and exits with their number. Exits with 16 and the place for a character that may not stand there, and with 32
   where bits are left over that aren't 0. What a character is worth is made by masks, which part nothing.
   Ten leaves: one for each place of a wrong character, one for a '=' with another character behind it; three bytes; and two
   or one, each with bits left over or none. */
#define BYTES 4
#include "routine.h"

/* All ones where low <= c <= high, else 0. */
static inline u32 within(u32 c, u32 low, u32 high) { return -(((low - 1 - c) & (c - 1 - high)) >> 31); }

/* Below 64, or 64 where the character isn't of the alphabet. */
static u32 worth(u32 c) {
    u32 upper = within(c, 'A', 'Z'), lower = within(c, 'a', 'z'), digit = within(c, '0', '9');
    u32 plus = within(c, '+', '+'), slash = within(c, '/', '/'), none = ~(upper | lower | digit | plus | slash);
    return (upper & (c - 'A')) | (lower & (c - 'a' + 26)) | (digit & (c - '0' + 52)) | (plus & 62) | (slash & 63) | (none & 64);
}

START {
    u32 bits = 0, count = 3;
    for (u32 i = 0; i < BYTES; i++) {
        u32 c = input[i];
        if (i >= 2 && c == '=') {
            if (i == 2 && input[3] != '=')
                leave(16 + 3);
            count = i - 1;
            break;
        }
        u32 six = worth(c);
        if (six == 64)
            leave(16 + i);
        bits |= six << 6 * (3 - i);
    }
    if (bits & ((1 << 8 * (3 - count)) - 1))
        leave(32);
    u8 bytes[3] = {bits >> 16, bits >> 8, bits};
    put(1, bytes, count);
    leave(count);
}
