/* A check of a date: day, month and year, the year's lower byte first. Exits with 0 where there is such a day in the Gregorian
   calendar; with 1 for a year before 1583, with 2 for a month that isn't one, and with 3 for a day that the month doesn't have.
   17 leaves: the year and the month that are refused, and three for each way to the month's length: day 0, a day past its end,
   and a day that is there. There are five such ways: from the table, and February with four kinds of year, which are no multiple
   of 4, one of 4 alone, one of 100 too, and one of 400 too. */
#define BYTES 4
#include "routine.h"

enum { BAD_YEAR = 1, BAD_MONTH = 2, BAD_DAY = 3 };

static const u8 days[12] = {31, 28, 31, 30, 31, 30, 31, 31, 30, 31, 30, 31};

START {
    u32 day = input[0], month = input[1], year = input[2] | input[3] << 8;
    if (year < 1583)
        leave(BAD_YEAR);
    if (month < 1 || month > 12)
        leave(BAD_MONTH);
    u32 last = days[month - 1];
    if (month == 2 && year % 4 == 0 && (year % 100 != 0 || year % 400 == 0))
        last = 29;
    if (day < 1 || day > last)
        leave(BAD_DAY);
    leave(0);
}
