/* A check of a Modbus request, in six bytes without its CRC: unit, function, start and count, or register and value, each of
   these with its upper byte first. Exits with 0 where the request can be served, with the exception code where it can't, and
   with 255 where it isn't for this unit. A broadcast may only write.
   15 leaves: another unit, and a broadcast that doesn't write; three for a broadcast that does, which are a register that isn't
   there, a value that is too large, and a good request; the same three for a write to this unit; three for each of the two
   reads; and one for another function. gcc tests at once whether a count is 0 or too large. */
#define BYTES 6
#include "routine.h"

enum { BROADCAST = 0, OURS = 17, NOT_OURS = 255 };
enum { READ_COILS = 1, READ_REGISTERS = 3, WRITE_REGISTER = 6 };
enum { BAD_FUNCTION = 1, BAD_ADDRESS = 2, BAD_VALUE = 3 };
enum { COILS = 48, REGISTERS = 32, VALUE_MOST = 1000 };

static void check_read(u32 start, u32 count, u32 count_most, u32 there) {
    if (count == 0 || count > count_most)
        leave(BAD_VALUE);
    if (start + count > there)
        leave(BAD_ADDRESS);
}

START {
    u32 unit = input[0], function = input[1];
    u32 start = input[2] << 8 | input[3], count = input[4] << 8 | input[5];
    if (unit != OURS && (unit != BROADCAST || function != WRITE_REGISTER))
        leave(NOT_OURS);
    switch (function) {
    case READ_COILS:
        check_read(start, count, 2000, COILS);
        break;
    case READ_REGISTERS:
        check_read(start, count, 125, REGISTERS);
        break;
    case WRITE_REGISTER:
        if (start >= REGISTERS)
            leave(BAD_ADDRESS);
        if (count > VALUE_MOST)
            leave(BAD_VALUE);
        break;
    default:
        leave(BAD_FUNCTION);
    }
    leave(0);
}
