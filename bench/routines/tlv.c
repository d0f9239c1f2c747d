/* A walk over entries of type, length and value in five bytes, laid out as DHCP options are: type 0 is one byte of padding,
   type 255 ends the list, and every other type has a length after it. Exits with the number of entries of types 1 to 3; with
   254 where the length is missing, and with 255 where the value runs past the end.
   Where the next entry starts depends on the length, and so does the address of its load, which parts nothing. gcc counts the
   entries without a branch.
   42 leaves. With r bytes left there are f(r), and with any number from 0 to r, where the length doesn't matter, F(r). f(0) and
   F(0) are 1; f(1) is 3 for padding, the end of the list and a missing length, and F(1) is 1 more, for no byte. From two bytes on
   f(r) is f(r - 1) for padding, 2 for the end of the list and for a value that runs past the end, and F(r - 2) for a value that
   fits; and F(r) is the same of F, with 2 more for no byte and for a missing length. So F(1) to F(3) are 4, 9, 17, and f(2) to
   f(5) are 6, 12, 23, 42. */
#define BYTES 5
#include "routine.h"

enum { PADDING = 0, END = 255, NO_LENGTH = 254, PAST_END = 255 };

START {
    u32 at = 0, known = 0;
    while (at < BYTES) {
        u32 type = input[at++];
        if (type == PADDING)
            continue;
        if (type == END)
            break;
        if (at == BYTES)
            leave(NO_LENGTH);
        u32 length = input[at++];
        if (length > BYTES - at)
            leave(PAST_END);
        if (type <= 3)
            known++;
        at += length;
    }
    leave(known);
}
