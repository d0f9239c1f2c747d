/* A call by a table of functions, which the input's upper two bits choose, and an array on the stack which the answer
   indexes: exits with what stands there.
   Six leaves: one of the first function; two each of the second and the fourth, which branch; and one of the third, whose answer
   depends on the input, and with it the address of the load, but not its page. */
#include "routine.h"

static u32 fixed(u32 n) { return 3; }
static u32 halved(u32 n) { return n >= 100 ? 6 : 1; }
static u32 low(u32 n) { return n & 7; }
static u32 odd(u32 n) { if (n % 3 == 0) return 2; return n & 1 ? 4 : 5; }

static u32 (*const table[4])(u32) = {fixed, halved, low, odd};

START {
    volatile u8 places[8];
    u32 n = input;
    for (u32 i = 0; i < 8; i++)
        places[i] = 10 * i + 7;
    leave(places[table[n >> 6](n)]);
}
