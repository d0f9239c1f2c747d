/* Settings in a message: records one behind the other, each a length, a type, and so many bytes of value. The check of the
   length forgets the record's own header, so that a value may pass the end of the message by two bytes: this is planted.

   By hand, for 5 bytes: 18 leaves, 4 of which read past the end. With r bytes left at the top of the loop there are f(r). From
   2 bytes on one is TOO_LONG; a LEVEL has one of a wrong length and those behind it, f(r - 3), or with r = 2 one that reads past
   the end; a LIMIT has one of a wrong length and f(r - 4), or with r < 4 one that reads past the end; another type has one that
   ends the loop, since the last line is compiled without a branch, and where it may leave 2 to r - 2 bytes those behind it, which
   part by whether they read past the end. With f(0) = f(1) = 1:
       f(2)      = 1 + (1 + 1) + (1 + 1) + 1                  = 6, of which 2 read past the end
       f(2 or 3) = 1 + (1 + 1 + f(0)) + (1 + 1) + 1           = 7, of which 2 do
       f(5)      = 1 + (1 + f(2)) + (1 + f(1)) + 1 + f(2 or 3) = 18, of which 2 + 2 do */
#include <stdint.h>

enum { HEADER = 2 };
enum { LEVEL = 1, LIMIT = 2 };
enum { DONE = 0, TOO_LONG = 1, BAD_LENGTH = 2, LEFT_OVER = 3 };

struct {
    uint8_t level;
    uint16_t limit;
} settings;

int settings_read(const uint8_t *message, unsigned size)
{
    unsigned at = 0;

    while (at + HEADER <= size) {
        unsigned length = message[at];
        unsigned type = message[at + 1];
        const uint8_t *value = message + at + HEADER;

        if (at + length > size)
            return TOO_LONG;
        if (type == LEVEL) {
            if (length != 1)
                return BAD_LENGTH;
            settings.level = value[0];
        } else if (type == LIMIT) {
            if (length != 2)
                return BAD_LENGTH;
            settings.limit = value[0] | value[1] << 8;
        }
        at += HEADER + length;
    }
    return at == size ? DONE : LEFT_OVER;
}
