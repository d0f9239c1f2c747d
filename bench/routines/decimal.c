/* A decimal number of four characters at most, which a NUL ends if it is shorter, with a minus in front or none: exits with it
   as a byte, where it is from -128 to 127. Else writes a letter on standard error, and exits with the place where it stopped:
   b for a character that is no digit, e where there is no digit, r where the number is out of range.
   15 leaves: wrong characters behind none to three digits, and no digit, with a minus or without one; one digit, two, and three
   and four of which each may be out of range; and with a minus four, since there is one place less. gcc makes the first place of
   the comparison with the minus, so that all loads behind it are at addresses that depend on the first byte. */
#define BYTES 4
#include "routine.h"

static __attribute__((noreturn)) void refuse(const char *why, u32 place) {
    put(2, why, 1);
    leave(place);
}

START {
    u32 place = input[0] == '-', minus = place, first = place, value = 0;
    for (; place < BYTES && input[place]; place++) {
        u32 digit = input[place] - '0';
        if (digit > 9)
            refuse("b", place);
        value = 10 * value + digit;
    }
    if (place == first)
        refuse("e", place);
    if (value > 127 + minus)
        refuse("r", place);
    leave(minus ? -value : value);
}
