/* One line of a serial console, ended by a carriage return: `?`, `on`, `off`, and `dim N` with N from 0 to 31.

   By hand, for 7 bytes: 26 leaves. One has no carriage return. With the carriage return in place k there are
       k = 0: 1, the empty line        k = 1: 2, `?` or not        k = 2: 3, `on` or wrong at one of two places
       k = 3: 4, `off` likewise        k = 4: 1, unknown           k = 5: 4 wrong at `dim `, 1 with no digit, 1 right
       k = 6: 4 wrong at `dim `, 2 with no digit, 1 above 31, 1 right */
#include <stdint.h>
#include "uart.h"

enum { MOST = 31 };
enum { DONE = 0, EMPTY = 1, NO_END = 2, UNKNOWN = 3, NO_NUMBER = 4, TOO_MUCH = 5 };

unsigned lamp;

static int set_lamp(unsigned level)
{
    char shown[2] = { '0' + level / 10, '0' + level % 10 };

    lamp = level;
    uart_write(shown, 2);
    return DONE;
}

static int begins_with(const char *line, const char *word, unsigned length)
{
    for (unsigned i = 0; i < length; i++)
        if (line[i] != word[i])
            return 0;
    return 1;
}

static int dim(const char *digits, unsigned count)
{
    unsigned level = 0;

    for (unsigned i = 0; i < count; i++) {
        unsigned digit = (uint8_t)digits[i] - '0';

        if (digit > 9)
            return NO_NUMBER;
        level = 10 * level + digit;
    }
    if (level > MOST)
        return TOO_MUCH;
    return set_lamp(level);
}

int console_line(const char *line, unsigned size)
{
    unsigned end = 0;

    while (end < size && line[end] != '\r')
        end++;
    if (end == size)
        return NO_END;
    if (end == 0)
        return EMPTY;
    if (end == 1 && begins_with(line, "?", 1))
        return set_lamp(lamp);
    if (end == 2 && begins_with(line, "on", 2))
        return set_lamp(MOST);
    if (end == 3 && begins_with(line, "off", 3))
        return set_lamp(0);
    if (end > 4 && begins_with(line, "dim ", 4))
        return dim(line + 4, end - 4);
    return UNKNOWN;
}
