/* Writes whose bytes, length, start and file depend on the input, all on standard output or standard error.
   First the byte itself, which parts nothing. Then a part of a text: its length is the byte's lowest two bits, its start
   is chosen by bit 2 and the file by bit 3, so 16 sides. A byte from 240 on then writes to a file that isn't there, and
   traps: 32 leaves. What is written and the status are terms. */
#include "routine.h"

static u8 text[] = "abcdefgh";
static volatile u8 seen[2];

START {
    u32 n = input;
    seen[0] = n;
    seen[1] = n ^ 0xFF;
    put(1, (const void *)seen, 2);
    u32 done = put(1 + (n >> 3 & 1), text + (n & 4), n & 3);
    if (n >= 240)
        put(n, text, 1);
    leave(done + n);
}
