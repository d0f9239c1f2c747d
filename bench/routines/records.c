/* Records one behind the other in eight bytes: a length, a type, and so many bytes of value. Type 1 is a flag of one byte,
   type 2 a number of two bytes; a record of another type is passed over. Writes the sum of the numbers in two bytes, and
   exits with the flags; with 254 where a record passes the end, and with 255 where a length isn't that of its type.
   Where the next record stands depends on the length, and so does the address of its load, which parts nothing.
   63 leaves. With r bytes left there are f(r), and with any number from 0 to r, where the length doesn't matter, F(r). f(0), f(1)
   and F(0) are 1, and F(1) is 2. From two bytes on f(r) is 3 for a record that passes the end and for the two wrong lengths,
   f(r - 3) for a flag and f(r - 4) for a number where there is room for it, and F(r - 2) for another type; and F(r) is the same of
   F, with 2 more for no byte and for one. So F(2) to F(6) are 6, 8, 14, 21, 33, f(2) to f(5) are 4, 6, 11, 16, and f(8) = 63. */
#define BYTES 8
#include "routine.h"

enum { FLAG = 1, NUMBER = 2, PAST_END = 254, WRONG_LENGTH = 255 };

START {
    u32 at = 0, flags = 0, sum = 0;
    while (at < BYTES) {
        if (BYTES - at < 2)
            leave(PAST_END);
        u32 length = input[at], type = input[at + 1];
        at += 2;
        if (length > BYTES - at)
            leave(PAST_END);
        if (type == FLAG) {
            if (length != 1)
                leave(WRONG_LENGTH);
            flags |= input[at];
        } else if (type == NUMBER) {
            if (length != 2)
                leave(WRONG_LENGTH);
            sum += input[at] | input[at + 1] << 8;
        }
        at += length;
    }
    u8 bytes[2] = {sum, sum >> 8};
    put(1, bytes, 2);
    leave(flags);
}
